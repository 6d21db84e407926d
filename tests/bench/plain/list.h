/*
 * What the list readers have in common: the numbers of the format, the parts that are
 * read and written alike, and what a call does before it reads a list.
 */
#ifndef LIST_H
#define LIST_H

#include "plain.h"

#include <stdbool.h>
#include <string.h>

#if __BYTE_ORDER__ != __ORDER_LITTLE_ENDIAN__
#error "numbers are copied as they are, low byte first"
#endif

enum { LIST_LIMIT = 4096, DEPTH_LIMIT = 8, WORD = 4, ROW = 12 };

enum { INT = 1, STRING = 4, VOCAB = 9, FLOAT = 10, BLOB = 12, LIST = 256 };

enum {
    AREA_TOO_SMALL = 20,
    BYTES_END = 21,
    NOT_A_LIST = 22,
    COUNT_BELOW_0 = 23,
    WRONG_LIST_CODE = 24,
    BAD_STRING_OR_BLOB = 25,
    UNKNOWN_CODE = 26,
    TOO_DEEP = 27,
    BEYOND_LIMIT = 28
};

static inline uint32_t word_at(const uint8_t *at)
{
    uint32_t word;
    memcpy(&word, at, WORD);
    return word;
}

static inline int32_t signed_at(const uint8_t *at)
{
    return (int32_t)word_at(at);
}

static inline bool is_kind(uint32_t code)
{
    return code == INT || code == STRING || code == VOCAB || code == FLOAT || code == BLOB;
}

static inline bool is_list_code(uint32_t code)
{
    return code == LIST || (code > LIST && is_kind(code - LIST));
}

static inline cinder_list_result refused(uint64_t error, uint64_t offset, uint64_t depth)
{
    return (cinder_list_result){.error = error, .offset = offset, .depth = depth};
}

/*
 * Reads the list at `offset`, into buffers that have their room; offsets of errors count
 * from the front of `bytes`.
 */
typedef cinder_list_result list_reader(const uint8_t *bytes, size_t bytes_len, size_t offset,
                                       uint8_t *rows, uint8_t *store);

static inline cinder_list_result list_decode_by(list_reader *read,
                                                const uint8_t *bytes, size_t bytes_len,
                                                uint8_t *rows, size_t rows_len,
                                                uint8_t *store, size_t store_len)
{
    if (rows_len < CINDER_ROWS_ROOM || store_len < CINDER_STORE_ROOM)
        return refused(AREA_TOO_SMALL, 0, 0);
    return read(bytes, bytes_len, 0, rows, store);
}

static inline cinder_list_result stream_next_by(list_reader *read,
                                                const uint8_t *bytes, size_t bytes_len,
                                                uint64_t offset,
                                                uint8_t *rows, size_t rows_len,
                                                uint8_t *store, size_t store_len)
{
    if (rows_len < CINDER_ROWS_ROOM || store_len < CINDER_STORE_ROOM)
        return refused(AREA_TOO_SMALL, 0, 0);
    if (offset > bytes_len)
        return refused(BYTES_END, offset, 0);
    if (offset == bytes_len)
        return (cinder_list_result){0};
    return read(bytes, bytes_len, (size_t)offset, rows, store);
}

#endif
