#include "list_cases.h"

#include "checks.h"

#include <string.h>

#define READS(consumed, rows) 0, 0, 0, consumed, rows
#define FAILS(error, offset, depth) error, offset, depth, 0, 0
#define NO_TAIL NULL, {{0}}, NULL

const struct list_case list_cases[] = {
    /* Bench cases. */
    {"primes", READS(40, 9), 10, 0, 0, {257, 8, 2, 3, 5, 7, 11, 13, 17, 19}, NULL,
     {{256, 8, 0}, {1, 2, 0}, {1, 3, 0}, {1, 5, 0}, {1, 7, 0},
      {1, 11, 0}, {1, 13, 0}, {1, 17, 0}, {1, 19, 0}}, NULL},
    {"two lists", READS(72, 10), 9, 36, 16, {256, 2, 257, 3, 91, 92, 93, 260, 4},
     "\5\0\0\0this\0\3\0\0\0is\0\2\0\0\0a\0\12\0\0\0good list\0",
     {{256, 2, 0}, {256, 3, 0}, {1, 91, 0}, {1, 92, 0}, {1, 93, 0},
      {256, 4, 0}, {4, 0, 4}, {4, 4, 2}, {4, 6, 1}, {4, 7, 9}}, "thisisagood list"},
    {"empty list", READS(8, 1), 2, 0, 0, {256, 0}, NULL, {{256, 0, 0}}, NULL},
    {"typed list of 0", FAILS(24, 0, 1), 2, 0, 0, {257, 0}, NO_TAIL},
    {"256 list of one int", FAILS(24, 0, 1), 4, 0, 0, {256, 1, 1, 5}, NO_TAIL},
    {"code 512", FAILS(22, 0, 0), 2, 0, 0, {512, 0}, NO_TAIL},
    {"eight nested", READS(64, 8), 16, 0, 0,
     {256, 1, 256, 1, 256, 1, 256, 1, 256, 1, 256, 1, 256, 1, 256, 0}, NULL,
     {{256, 1, 0}, {256, 1, 0}, {256, 1, 0}, {256, 1, 0},
      {256, 1, 0}, {256, 1, 0}, {256, 1, 0}, {256, 0, 0}}, NULL},
    {"nine nested", FAILS(27, 64, 8), 18, 0, 0,
     {256, 1, 256, 1, 256, 1, 256, 1, 256, 1, 256, 1, 256, 1, 256, 1, 256, 0}, NO_TAIL},
    /* Every kind, later bytes ignored. */
    {"one of each kind", READS(58, 6), 13, 11, 5,
     {256, 5, 1, 0x80000000, 9, 7, 10, 0x89abcdef, 0x01234567, 4, 4, 0x00434241, 12},
     "\2\0\0\0\0\377\1\1\0\0\0",
     {{256, 5, 0}, {1, 0x80000000, 0}, {9, 7, 0}, {10, 0x89abcdef, 0x01234567},
      {4, 0, 3}, {12, 3, 2}}, "ABC\0\377"},
    {"two typed lists of one int", READS(32, 5), 8, 0, 0, {256, 2, 257, 1, 5, 257, 1, 5}, NULL,
     {{256, 2, 0}, {256, 1, 0}, {1, 5, 0}, {256, 1, 0}, {1, 5, 0}}, NULL},
    {"int, vocab, int", READS(32, 4), 8, 0, 0, {256, 3, 1, 5, 9, 5, 1, 5}, NULL,
     {{256, 3, 0}, {1, 5, 0}, {9, 5, 0}, {1, 5, 0}}, NULL},
    {"empty blob", READS(12, 2), 3, 0, 0, {268, 1, 0}, NULL, {{256, 1, 0}, {12, 0, 0}}, NULL},
    {"empty string", READS(13, 2), 3, 2, 0, {260, 1, 1}, "\0\7", {{256, 1, 0}, {4, 0, 0}}, NULL},
    /* Offsets of faults. */
    {"no bytes", FAILS(21, 0, 0), 0, 0, 0, {0}, NO_TAIL},
    {"three bytes", FAILS(21, 0, 0), 0, 3, 0, {0}, "\0\1\0", {{0}}, NULL},
    {"no count", FAILS(21, 4, 1), 1, 0, 0, {256}, NO_TAIL},
    {"no element", FAILS(21, 8, 1), 2, 0, 0, {256, 1}, NO_TAIL},
    {"count beyond the bytes", FAILS(21, 8, 1), 2, 0, 0, {257, 0x7fffffff}, NO_TAIL},
    {"count below 0", FAILS(23, 4, 1), 2, 0, 0, {256, 0xffffffff}, NO_TAIL},
    {"typed count below 0", FAILS(23, 4, 1), 2, 0, 0, {257, 0x80000000}, NO_TAIL},
    {"second element cut", FAILS(21, 20, 1), 5, 0, 0, {256, 2, 1, 5, 1}, NO_TAIL},
    {"two ints in a 256 list", FAILS(24, 0, 1), 6, 0, 0, {256, 2, 1, 5, 1, 6}, NO_TAIL},
    {"inner list at fault", FAILS(24, 8, 2), 7, 0, 0, {256, 2, 256, 1, 1, 5, 7}, NO_TAIL},
    {"inner typed list of 0", FAILS(24, 8, 2), 4, 0, 0, {256, 2, 265, 0}, NO_TAIL},
    {"unknown element", FAILS(26, 8, 1), 3, 0, 0, {256, 1, 7}, NO_TAIL},
    {"unknown typed list", FAILS(22, 0, 0), 3, 0, 0, {261, 1, 5}, NO_TAIL},
    {"unknown typed list within", FAILS(26, 8, 1), 5, 0, 0, {256, 1, 261, 1, 5}, NO_TAIL},
    {"unknown element at depth 8", FAILS(26, 64, 8), 17, 0, 0,
     {256, 1, 256, 1, 256, 1, 256, 1, 256, 1, 256, 1, 256, 1, 256, 1, 512}, NO_TAIL},
    {"string length 0", FAILS(25, 8, 1), 3, 0, 0, {260, 1, 0}, NO_TAIL},
    {"string length below 0", FAILS(25, 8, 1), 3, 0, 0, {260, 1, 0xffffffff}, NO_TAIL},
    {"blob length below 0", FAILS(25, 8, 1), 3, 0, 0, {268, 1, 0x80000000}, NO_TAIL},
    {"string length beyond the limit", FAILS(28, 12, 1), 3, 0, 0, {260, 1, 0x7fffffff}, NO_TAIL},
    {"blob one beyond the limit", FAILS(28, 12, 1), 3, 0, 0, {268, 1, 4085}, NO_TAIL},
    {"blob to the limit, cut", FAILS(21, 12, 1), 3, 0, 0, {268, 1, 4084}, NO_TAIL},
    {"zero within a string", FAILS(25, 12, 1), 3, 4, 0, {260, 1, 4}, "A\0A\0", {{0}}, NULL},
    {"string not closed", FAILS(25, 12, 1), 3, 4, 0, {260, 1, 4}, "AAAA", {{0}}, NULL},
    {"string cut", FAILS(21, 12, 1), 3, 3, 0, {260, 1, 4}, "A\0A", {{0}}, NULL},
    /* Depths: a nested list's code, its count, what is in it, and what is behind it. */
    {"inner code cut", FAILS(21, 8, 1), 2, 3, 0, {256, 2}, "\0\1\0", {{0}}, NULL},
    {"no inner count", FAILS(21, 12, 2), 3, 0, 0, {256, 2, 256}, NO_TAIL},
    {"inner count below 0", FAILS(23, 12, 2), 4, 0, 0, {256, 2, 257, 0x80000000}, NO_TAIL},
    {"no inner element", FAILS(21, 16, 2), 4, 0, 0, {256, 2, 266, 1}, NO_TAIL},
    {"unknown inner element", FAILS(26, 16, 2), 5, 0, 0, {256, 2, 256, 1, 7}, NO_TAIL},
    {"inner string length 0", FAILS(25, 16, 2), 5, 0, 0, {256, 2, 260, 1, 0}, NO_TAIL},
    {"inner blob beyond the limit", FAILS(28, 20, 2), 5, 0, 0, {256, 2, 268, 1, 4096}, NO_TAIL},
    {"behind an inner list", FAILS(21, 20, 1), 5, 0, 0, {256, 2, 257, 1, 5}, NO_TAIL},
    {"unknown behind two inner lists", FAILS(26, 24, 1), 7, 0, 0, {256, 2, 256, 1, 256, 0, 7},
     NO_TAIL},
    {"innermost list at fault", FAILS(24, 24, 3), 10, 0, 0,
     {256, 2, 256, 2, 256, 0, 256, 1, 1, 5}, NO_TAIL},
    {"innermost typed list of 0", FAILS(24, 24, 3), 8, 0, 0,
     {256, 2, 256, 2, 256, 0, 257, 0}, NO_TAIL},
    {"typed list of 0 at depth 8", FAILS(24, 56, 8), 16, 0, 0,
     {256, 1, 256, 1, 256, 1, 256, 1, 256, 1, 256, 1, 256, 1, 265, 0}, NO_TAIL},
};

const size_t list_case_count = sizeof list_cases / sizeof list_cases[0];

void put_words(uint8_t *bytes, const uint32_t *words, size_t count)
{
    for (size_t at = 0; at < 4 * count; at++)
        bytes[at] = (uint8_t)(words[at / 4] >> 8 * (at % 4));
}

uint8_t *list_bytes(const struct list_case *given, size_t *length)
{
    *length = 4 * given->word_count + given->tail_length;
    uint8_t *bytes = new_buffer(*length);
    put_words(bytes, given->words, given->word_count);
    if (given->tail_length > 0)
        memcpy(bytes + 4 * given->word_count, given->tail, given->tail_length);
    return bytes;
}

static uint32_t word_at(const uint8_t *bytes)
{
    return bytes[0] | (uint32_t)bytes[1] << 8 | (uint32_t)bytes[2] << 16 | (uint32_t)bytes[3] << 24;
}

uint64_t lists_open(const uint8_t *bytes, size_t length)
{
    /* For each open list the code of its elements, 0 where each follows its own, and how many
     * of them have not begun. */
    struct {
        uint32_t kind, awaited;
    } open[DEPTH_LIMIT];
    uint64_t depth = 0;
    size_t at = 0;
    while (at < length) {
        uint32_t code = depth > 0 ? open[depth - 1].kind : 0;
        if (code == 0) {
            code = word_at(bytes + at);
            at += 4;
        }
        if (depth > 0)
            open[depth - 1].awaited--;
        if (code >= 256) {
            open[depth].kind = code - 256;
            depth++;
        }
        /* The bytes end before the count, the element, or its length. */
        if (at == length)
            break;
        uint32_t first = word_at(bytes + at);
        at += code == 10 ? 8 : 4;
        if (code >= 256)
            open[depth - 1].awaited = first;
        if (code == 4 || code == 12) {
            /* They end before the bytes of a string or a blob. */
            if (at == length && first > 0)
                break;
            at += first;
        }
        while (depth > 0 && open[depth - 1].awaited == 0)
            depth--;
    }
    return depth;
}

uint8_t *list_rows(const struct list_case *given)
{
    uint8_t *rows = new_buffer(ROW_BYTES * given->row_count);
    for (size_t row = 0; row < given->row_count; row++)
        put_words(rows + ROW_BYTES * row, given->rows[row], 3);
    return rows;
}

void put_ints(uint8_t *bytes, size_t length, uint32_t count)
{
    uint32_t header[2] = {257, count};
    put_words(bytes, header, 2);
    for (uint32_t at = 2; at < length / 4; at++) {
        uint32_t value = at - 2;
        put_words(bytes + 4 * (size_t)at, &value, 1);
    }
}

uint8_t *int_rows(size_t row_count)
{
    uint8_t *rows = new_buffer(ROW_BYTES * row_count);
    for (uint32_t row = 0; row < row_count; row++) {
        uint32_t list_row[3] = {256, (uint32_t)row_count - 1, 0};
        uint32_t int_row[3] = {1, row - 1, 0};
        put_words(rows + ROW_BYTES * (size_t)row, row == 0 ? list_row : int_row, 3);
    }
    return rows;
}
