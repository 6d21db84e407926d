/* Lists for the firmware's checks, with the answers that document 01 and the readings of
 * its open points give for them. */
#ifndef LIST_CASES_H
#define LIST_CASES_H

#include <stddef.h>
#include <stdint.h>

enum { LIST_LIMIT = 4096, DEPTH_LIMIT = 8, ROWS_ROOM = 12288, STORE_ROOM = 4096, ROW_BYTES = 12 };

/* A list given as 32-bit numbers, then single bytes. On an error consumed and row_count
 * are 0 and nothing is written; otherwise offset and depth are 0. */
struct list_case {
    const char *name;
    uint64_t error;
    uint64_t offset;
    uint64_t depth;
    uint64_t consumed;
    size_t row_count;
    size_t word_count;
    size_t tail_length;
    size_t store_length;
    uint32_t words[24];
    const char *tail;
    uint32_t rows[10][3];
    const char *store;
};

extern const struct list_case list_cases[];
extern const size_t list_case_count;

/* The bytes of a case in a buffer of exactly their length. Freed by the caller. */
uint8_t *list_bytes(const struct list_case *given, size_t *length);

/* The rows of a case, 12 bytes each, low byte first. Freed by the caller. */
uint8_t *list_rows(const struct list_case *given);

/* How many lists are open where these bytes end, which must be where an item of a list begins:
 * counted by codes, counts and lengths alone. */
uint64_t lists_open(const uint8_t *bytes, size_t length);

/* Puts as much of a typed list of ints 0, 1, 2 .. with this count as `length` bytes hold. */
void put_ints(uint8_t *bytes, size_t length, uint32_t count);

/* So many rows of that list: its own and those of its ints. Freed by the caller. */
uint8_t *int_rows(size_t row_count);

/* Writes numbers low byte first. */
void put_words(uint8_t *bytes, const uint32_t *words, size_t count);

#endif
