/*
 * Reads a list in two passes as list_reader.c does, tuned by hand: a typed list of
 * numbers is judged by one comparison, pointers are kept in place of offsets, and the
 * rows and the store are filled in one loop, whatever the depth.
 */
#include "list.h"

/* The bytes as far as a list may reach, and the first fault once one is found, with the
 * number of lists open there. */
struct judge {
    const uint8_t *front, *end;
    const uint8_t *fault;
    unsigned error, depth;
};

/*
 * Every part of the judge answers where the next item begins, or NULL after a fault. Each is
 * told the depth, which is written where there is a fault and nowhere else.
 */
static const uint8_t *refuse(struct judge *judge, unsigned error, const uint8_t *at,
                             unsigned depth)
{
    judge->error = error;
    judge->fault = at;
    judge->depth = depth;
    return NULL;
}

/* The item at `at` does not fit: the limit comes before the end of the bytes. */
static const uint8_t *refuse_cut(struct judge *judge, const uint8_t *at, size_t size,
                                 unsigned depth)
{
    size_t end = (size_t)(at - judge->front) + size;
    return refuse(judge, end > LIST_LIMIT ? BEYOND_LIMIT : BYTES_END, at, depth);
}

static inline bool fits(const struct judge *judge, const uint8_t *at, size_t size)
{
    return (size_t)(judge->end - at) >= size;
}

static inline const uint8_t *judge_item(struct judge *judge, const uint8_t *at, size_t size,
                                        unsigned depth)
{
    return fits(judge, at, size) ? at + size : refuse_cut(judge, at, size, depth);
}

/* So many elements of one size. */
static inline const uint8_t *judge_fixed(struct judge *judge, const uint8_t *at,
                                         size_t count, size_t size, unsigned depth)
{
    size_t fitting = (size_t)(judge->end - at) / size;
    if (count > fitting)
        return refuse_cut(judge, at + fitting * size, size, depth);
    return at + count * size;
}

static inline const uint8_t *judge_string(struct judge *judge, const uint8_t *at, unsigned depth)
{
    if (!fits(judge, at, WORD))
        return refuse_cut(judge, at, WORD, depth);
    int32_t length = signed_at(at);
    if (length < 1)
        return refuse(judge, BAD_STRING_OR_BLOB, at, depth);
    at += WORD;
    if (!fits(judge, at, (size_t)length))
        return refuse_cut(judge, at, (size_t)length, depth);
    if (memchr(at, 0, (size_t)length) != at + length - 1)
        return refuse(judge, BAD_STRING_OR_BLOB, at, depth);
    return at + length;
}

static inline const uint8_t *judge_blob(struct judge *judge, const uint8_t *at, unsigned depth)
{
    if (!fits(judge, at, WORD))
        return refuse_cut(judge, at, WORD, depth);
    int32_t length = signed_at(at);
    if (length < 0)
        return refuse(judge, BAD_STRING_OR_BLOB, at, depth);
    return judge_item(judge, at + WORD, (size_t)length, depth);
}

static const uint8_t *judge_list(struct judge *judge, const uint8_t *code_at, unsigned depth);

/* The elements of a 256 list of this depth, each behind its code. */
static const uint8_t *judge_untyped(struct judge *judge, const uint8_t *at, int32_t count,
                                    const uint8_t *list_at, unsigned depth)
{
    uint32_t first = 0;
    bool one_kind = count > 0;
    for (int32_t number = 0; number < count; number++) {
        if (!fits(judge, at, WORD))
            return refuse_cut(judge, at, WORD, depth);
        uint32_t code = word_at(at);
        if (number == 0)
            first = code;
        one_kind &= code == first;
        switch (code) {
        case INT:
        case VOCAB:
            at = judge_item(judge, at + WORD, WORD, depth);
            break;
        case FLOAT:
            at = judge_item(judge, at + WORD, 2 * WORD, depth);
            break;
        case STRING:
            at = judge_string(judge, at + WORD, depth);
            break;
        case BLOB:
            at = judge_blob(judge, at + WORD, depth);
            break;
        default:
            if (!is_list_code(code))
                return refuse(judge, UNKNOWN_CODE, at, depth);
            if (depth == DEPTH_LIMIT)
                return refuse(judge, TOO_DEEP, at, depth);
            one_kind = false;
            at = judge_list(judge, at, depth + 1);
        }
        if (at == NULL)
            return NULL;
    }
    if (one_kind)
        return refuse(judge, WRONG_LIST_CODE, list_at, depth);
    return at;
}

/* The list of this depth whose code stands at `code_at` and is a list code. */
static const uint8_t *judge_list(struct judge *judge, const uint8_t *code_at, unsigned depth)
{
    uint32_t code = word_at(code_at);
    const uint8_t *at = code_at + WORD;
    if (!fits(judge, at, WORD))
        return refuse_cut(judge, at, WORD, depth);
    int32_t count = signed_at(at);
    if (count < 0)
        return refuse(judge, COUNT_BELOW_0, at, depth);
    at += WORD;
    if (code == LIST)
        return judge_untyped(judge, at, count, code_at, depth);
    if (count == 0)
        return refuse(judge, WRONG_LIST_CODE, code_at, depth);
    switch (code - LIST) {
    case FLOAT:
        return judge_fixed(judge, at, (size_t)count, 2 * WORD, depth);
    case STRING:
        while (count-- > 0 && at != NULL)
            at = judge_string(judge, at, depth);
        return at;
    case BLOB:
        while (count-- > 0 && at != NULL)
            at = judge_blob(judge, at, depth);
        return at;
    default:
        return judge_fixed(judge, at, (size_t)count, WORD, depth);
    }
}

static const uint8_t *judge_outermost(struct judge *judge)
{
    if (!fits(judge, judge->front, WORD))
        return refuse_cut(judge, judge->front, WORD, 0);
    if (!is_list_code(word_at(judge->front)))
        return refuse(judge, NOT_A_LIST, judge->front, 0);
    return judge_list(judge, judge->front, 1);
}

/* Answers where the next row begins: gcc keeps that in a register. */
static inline uint8_t *put_row(uint8_t *row, uint32_t code, uint32_t second, uint32_t third)
{
    memcpy(row, &code, WORD);
    memcpy(row + WORD, &second, WORD);
    memcpy(row + 2 * WORD, &third, WORD);
    return row + ROW;
}

/* The end of the rows and the bytes of the store in use: two registers. */
struct filled {
    uint8_t *rows_end;
    uint64_t used;
};

/*
 * Only 256 lists hold lists, and each of their elements follows its code. So a judged
 * list is one series of items with codes, whatever the depth; a typed list is one item.
 */
static struct filled fill(const uint8_t *at, const uint8_t *end, uint8_t *row, uint8_t *store)
{
    uint32_t used = 0;
    while (at < end) {
        uint32_t code = word_at(at);
        uint32_t kind = code;
        uint32_t count = 1;
        at += WORD;
        if (code >= LIST) {
            count = word_at(at);
            kind = code - LIST;
            row = put_row(row, LIST, count, 0);
            at += WORD;
        }
        switch (kind) {
        case INT:
        case VOCAB:
            for (uint32_t number = 0; number < count; number++, at += WORD)
                row = put_row(row, kind, word_at(at), 0);
            break;
        case FLOAT:
            for (uint32_t number = 0; number < count; number++, at += 2 * WORD)
                row = put_row(row, FLOAT, word_at(at), word_at(at + WORD));
            break;
        case STRING:
            for (uint32_t number = 0; number < count; number++) {
                uint32_t length = word_at(at) - 1;
                row = put_row(row, STRING, used, length);
                memcpy(store + used, at + WORD, length);
                used += length;
                at += WORD + length + 1;
            }
            break;
        case BLOB:
            for (uint32_t number = 0; number < count; number++) {
                uint32_t length = word_at(at);
                row = put_row(row, BLOB, used, length);
                memcpy(store + used, at + WORD, length);
                used += length;
                at += WORD + length;
            }
            break;
        }
    }
    return (struct filled){row, used};
}

static inline cinder_list_result decode_at(const uint8_t *bytes, size_t bytes_len, size_t offset,
                                           uint8_t *rows, uint8_t *store)
{
    size_t reach = bytes_len - offset < LIST_LIMIT ? bytes_len - offset : LIST_LIMIT;
    struct judge judge = {.front = bytes + offset, .end = bytes + offset + reach};
    const uint8_t *end = judge_outermost(&judge);
    if (end == NULL)
        return refused(judge.error, (uint64_t)(judge.fault - bytes), judge.depth);
    struct filled filled = fill(judge.front, end, rows, store);
    return (cinder_list_result){
        .consumed = (uint64_t)(end - judge.front),
        .rows = (uint64_t)(filled.rows_end - rows) / ROW,
        .stored = filled.used,
    };
}

cinder_list_result tuned_list_decode(const uint8_t *bytes, size_t bytes_len,
                                     uint8_t *rows, size_t rows_len,
                                     uint8_t *store, size_t store_len)
{
    return list_decode_by(decode_at, bytes, bytes_len, rows, rows_len, store, store_len);
}

cinder_list_result tuned_stream_next(const uint8_t *bytes, size_t bytes_len, uint64_t offset,
                                     uint8_t *rows, size_t rows_len,
                                     uint8_t *store, size_t store_len)
{
    return stream_next_by(decode_at, bytes, bytes_len, offset, rows, rows_len, store, store_len);
}
