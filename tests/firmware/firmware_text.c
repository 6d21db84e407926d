/* Lists as text: one list of each shape written and read back with areas of every size,
 * texts and lists that are refused, floats as printf writes them, and the limits. */

#include "checks.h"
#include "cinder.h"
#include "list_cases.h"

#include <stdio.h>
#include <stdlib.h>
#include <string.h>

enum { TEXT_ROOM = 16384, ROWS_OF_CASE = 12, DEEP = 100000 };

static const size_t text_rooms[] = {0, TEXT_ROOM - 1, TEXT_ROOM, TEXT_ROOM + 1};
static const size_t rows_rooms[] = {0, ROWS_ROOM - ROW_BYTES, ROWS_ROOM - 1, ROWS_ROOM,
                                    ROWS_ROOM + 1};
static const size_t store_rooms[] = {0, STORE_ROOM - 1, STORE_ROOM, STORE_ROOM + 1};

#define COUNT(array) (sizeof(array) / sizeof((array)[0]))

/* Writes rows and store into a text area of this length; on success it must be `wanted`. */
static void write_text(const uint8_t *rows, size_t rows_length, const uint8_t *store,
                       size_t store_length, size_t room, uint64_t error, const char *wanted,
                       size_t wanted_length, const char *name)
{
    uint8_t *given_rows = copy_of(rows, rows_length);
    uint8_t *given_store = copy_of(store, store_length);
    uint8_t *text = new_buffer(room);
    size_t written = error == 0 ? wanted_length : 0;
    cinder_write_result found =
        cinder_text_encode(given_rows, rows_length, given_store, store_length, text, room);
    check(found.error == error, name, "error of writing");
    check(found.written == written, name, "written");
    check(holds(text, room, (const uint8_t *)wanted, written), name, "text area");
    free(text);
    free(given_store);
    free(given_rows);
}

/* Reads a text into areas of these lengths; on success they must begin with these. */
static void read_text(const char *text, size_t length, size_t rows_room, size_t store_room,
                      uint64_t error, const uint8_t *rows, size_t row_count,
                      const uint8_t *store, size_t store_length, const char *name)
{
    uint8_t *given = copy_of((const uint8_t *)text, length);
    uint8_t *found_rows = new_buffer(rows_room);
    uint8_t *found_store = new_buffer(store_room);
    int good = error == 0;
    cinder_text_result found =
        cinder_text_decode(given, length, found_rows, rows_room, found_store, store_room);
    check(found.error == error, name, "error of reading");
    check(found.rows == (good ? row_count : 0), name, "rows");
    check(found.stored == (good ? store_length : 0), name, "stored");
    check(holds(found_rows, rows_room, rows, good ? ROW_BYTES * row_count : 0), name,
          "rows area");
    check(holds(found_store, store_room, store, good ? store_length : 0), name, "store area");
    free(found_store);
    free(found_rows);
    free(given);
}

static void refuse_text(const char *text, size_t length, uint64_t error, const char *name)
{
    read_text(text, length, ROWS_ROOM, STORE_ROOM, error, NULL, 0, NULL, 0, name);
}

/* A list and its text. */
struct text_case {
    const char *text;
    size_t row_count;
    size_t store_length;
    uint32_t rows[ROWS_OF_CASE][3];
    const char *store;
};

static const struct text_case text_cases[] = {
    {"", 1, 0, {{256, 0, 0}}, NULL},
    {"()", 2, 0, {{256, 1, 0}, {256, 0, 0}}, NULL},
    {"2 3 5 7 11 13 17 19", 9, 0,
     {{256, 8, 0}, {1, 2, 0}, {1, 3, 0}, {1, 5, 0}, {1, 7, 0}, {1, 11, 0}, {1, 13, 0},
      {1, 17, 0}, {1, 19, 0}}, NULL},
    {"(91 92 93) (\"this\" \"is\" \"a\" \"good list\")", 10, 16,
     {{256, 2, 0}, {256, 3, 0}, {1, 91, 0}, {1, 92, 0}, {1, 93, 0}, {256, 4, 0}, {4, 0, 4},
      {4, 4, 2}, {4, 6, 1}, {4, 7, 9}}, "thisisagood list"},
    {"0 -1 2147483647 -2147483648", 5, 0,
     {{256, 4, 0}, {1, 0, 0}, {1, 0xffffffff, 0}, {1, 0x7fffffff, 0}, {1, 0x80000000, 0}}, NULL},
    {"[!] [get] [~~~~] [(\"]", 5, 0,
     {{256, 4, 0}, {9, 0x21, 0}, {9, 0x746567, 0}, {9, 0x7e7e7e7e, 0}, {9, 0x2228, 0}}, NULL},
    {"\"\" \"\\\"\\\\ ~\" \"\\001\\037\\177\\377\"", 4, 8,
     {{256, 3, 0}, {4, 0, 0}, {4, 0, 4}, {4, 4, 4}}, "\"\\ ~\001\037\177\377"},
    {"{} {0} {9 10 99 100 255}", 4, 6, {{256, 3, 0}, {12, 0, 0}, {12, 0, 1}, {12, 1, 5}},
     "\000\011\012\143\144\377"},
    {"0x0.0000000000000p+0 -0x0.0000000000000p+0 0x0.0000000000001p-1022", 4, 0,
     {{256, 3, 0}, {10, 0, 0}, {10, 0, 0x80000000}, {10, 1, 0}}, NULL},
    {"0x1.0123456789abcp-1022 -0x1.fffffffffffffp+1023 0x1.0000000000000p+0", 4, 0,
     {{256, 3, 0}, {10, 0x56789abc, 0x101234}, {10, 0xffffffff, 0xffefffff}, {10, 0, 0x3ff00000}},
     NULL},
    {"1 ([a] (\"b\" {3}) () 0x1.8000000000000p-1) 2", 10, 2,
     {{256, 3, 0}, {1, 1, 0}, {256, 4, 0}, {9, 0x61, 0}, {256, 2, 0}, {4, 0, 1}, {12, 1, 1},
      {256, 0, 0}, {10, 0, 0x3fe80000}, {1, 2, 0}}, "b\3"},
    {"((((((()))))))", 8, 0,
     {{256, 1, 0}, {256, 1, 0}, {256, 1, 0}, {256, 1, 0}, {256, 1, 0}, {256, 1, 0}, {256, 1, 0},
      {256, 0, 0}}, NULL},
};

static uint8_t *rows_of(const uint32_t (*numbers)[3], size_t row_count)
{
    uint8_t *rows = new_buffer(ROW_BYTES * row_count);
    for (size_t row = 0; row < row_count; row++)
        put_words(rows + ROW_BYTES * row, numbers[row], 3);
    return rows;
}

/* Written and read with areas of every size; rows cut at every byte or followed by a part
 * of one, and one store byte fewer or more. */
static void check_case(const struct text_case *given)
{
    const char *text = given->text;
    const uint8_t *store = (const uint8_t *)given->store;
    size_t length = strlen(text);
    size_t rows_length = ROW_BYTES * given->row_count;
    uint8_t *rows = rows_of(given->rows, given->row_count);
    uint8_t more[(ROWS_OF_CASE + 1) * ROW_BYTES] = {0};
    for (size_t at = 0; at < COUNT(text_rooms); at++)
        write_text(rows, rows_length, store, given->store_length, text_rooms[at],
                   text_rooms[at] < TEXT_ROOM ? 20 : 0, text, length, text);
    for (size_t row = 0; row < COUNT(rows_rooms); row++)
        for (size_t at = 0; at < COUNT(store_rooms); at++)
            read_text(text, length, rows_rooms[row], store_rooms[at],
                      rows_rooms[row] < ROWS_ROOM || store_rooms[at] < STORE_ROOM ? 20 : 0, rows,
                      given->row_count, store, given->store_length, text);
    memcpy(more, rows, rows_length);
    for (size_t there = 0; there <= rows_length + ROW_BYTES; there++)
        if (there != rows_length)
            write_text(more, there, store, given->store_length, TEXT_ROOM, 30, NULL, 0, text);
    memset(more, 0, sizeof more);
    if (given->store_length > 0) {
        memcpy(more, store, given->store_length);
        write_text(rows, rows_length, store, given->store_length - 1, TEXT_ROOM, 30, NULL, 0, text);
    }
    write_text(rows, rows_length, more, given->store_length + 1, TEXT_ROOM, 30, NULL, 0, text);
    free(rows);
}

/* The text with something more around it, and with each character replaced by one that
 * stands in no text. */
static void check_damaged(const struct text_case *given)
{
    static const char *const around[][2] = {{" ", ""}, {"", " "}, {"(", ""}, {"", ")"},
                                            {"", "\n"}, {"1  ", ""}, {"(1 ", " )"}};
    size_t length = strlen(given->text);
    char other[200];
    for (size_t at = 0; at < COUNT(around); at++) {
        int size = snprintf(other, sizeof other, "%s%s%s", around[at][0], given->text,
                            around[at][1]);
        refuse_text(other, (size_t)size, 32, given->text);
    }
    refuse_text(given->text, length + 1, 32, "a zero behind the text");
    for (size_t at = 0; at < length; at++) {
        static const char outside[] = {0, 9, 10, 31, 127, (char)128, (char)255};
        memcpy(other, given->text, length);
        for (size_t character = 0; character < sizeof outside; character++) {
            other[at] = outside[character];
            refuse_text(other, length, 32, "a character that stands in no text");
        }
    }
}

/* No texts, each by one thing. */
static const char *const bad_texts[] = {
    " ", "-0", "00", "01", "-01", "+1", "-", "2147483648", "-2147483649", "4294967296", "0xfa",
    "1.5", "this", "1  2", "( 1)", "(1 )", "( )", "(", ")", "(()", "())", ")(", "(1)(2)", "1(2)",
    "[]", "[abcde]", "[a b]", "[a", "a]", "[a]]", "[[a]", "{", "{ }", "{1 }", "{ 1}", "{1  2}",
    "{256}", "{00}", "{01}", "{-1}", "{1", "\"", "\"a", "\"\\\"", "\"\\000\"", "\"\\040\"",
    "\"\\101\"", "\"\\176\"", "\"\\400\"", "\"\\12\"", "\"\\1", "\"\\n\"", "\"a\"\"b\"",
    "0x1.0000000000000p-0", "0x1.0000000000000p+00", "0x1.0000000000000p+01",
    "0x1.0000000000000p0", "0x1.0000000000000p+1024", "0x1.0000000000000p-1023",
    "0x1.000000000000p+0", "0x1.00000000000000p+0", "0x1.000000000000Ap+0",
    "0X1.0000000000000p+0", "0x1.0000000000000P+0", "0x2.0000000000000p+0",
    "0x0.0000000000000p-0", "0x0.0000000000000p+1", "0x0.0000000000000p-1022",
    "0x0.0000000000001p+0", "0x0.0000000000001p-1021", "+0x1.0000000000000p+0", "inf", "-nan",
};

/* Rows and store with no text form, or that are refused before that is judged. */
struct bad_rows {
    const char *name;
    uint64_t error;
    size_t row_count;
    size_t store_length;
    uint32_t rows[9][3];
    const char *store;
};

/* Seven lists in each other; an eighth follows. */
#define NESTED \
    {256, 1, 0}, {256, 1, 0}, {256, 1, 0}, {256, 1, 0}, {256, 1, 0}, {256, 1, 0}, {256, 1, 0}

static const struct bad_rows bad_rows[] = {
    {"no rows", 30, 0, 0, {{0}}, NULL},
    {"an int alone", 30, 1, 0, {{1, 5, 0}}, NULL},
    {"a row missing", 30, 1, 0, {{256, 1, 0}}, NULL},
    {"a row too many", 30, 2, 0, {{256, 0, 0}, {1, 5, 0}}, NULL},
    {"third number of a vocab", 30, 2, 0, {{256, 1, 0}, {9, 0x61, 1}}, NULL},
    {"a string of one zero", 30, 2, 1, {{256, 1, 0}, {4, 0, 1}}, "\0"},
    {"a string place", 30, 2, 0, {{256, 1, 0}, {4, 1, 0}}, NULL},
    {"nine nested", 27, 9, 0, {NESTED, {256, 1, 0}, {256, 0, 0}}, NULL},
    {"nine nested, a row missing", 30, 9, 0, {NESTED, {256, 1, 0}, {256, 1, 0}}, NULL},
    {"eight nested and a vocab of 0", 31, 9, 0, {NESTED, {256, 1, 0}, {9, 0, 0}}, NULL},
    {"infinity", 31, 2, 0, {{256, 1, 0}, {10, 0, 0x7ff00000}}, NULL},
    {"minus infinity", 31, 2, 0, {{256, 1, 0}, {10, 0, 0xfff00000}}, NULL},
    {"a NaN by its lowest bit", 31, 2, 0, {{256, 1, 0}, {10, 1, 0x7ff00000}}, NULL},
    {"a NaN by its highest bit", 31, 2, 0, {{256, 1, 0}, {10, 0, 0xfff80000}}, NULL},
    {"infinity and a row missing", 30, 2, 0, {{256, 2, 0}, {10, 0, 0x7ff00000}}, NULL},
    {"vocab 0", 31, 2, 0, {{256, 1, 0}, {9, 0, 0}}, NULL},
    {"vocab of a space", 31, 2, 0, {{256, 1, 0}, {9, 32, 0}}, NULL},
    {"vocab of 127", 31, 2, 0, {{256, 1, 0}, {9, 127, 0}}, NULL},
    {"vocab of [", 31, 2, 0, {{256, 1, 0}, {9, '[', 0}}, NULL},
    {"vocab of ]", 31, 2, 0, {{256, 1, 0}, {9, 0x61 + (']' << 8), 0}}, NULL},
    {"vocab with a zero below", 31, 2, 0, {{256, 1, 0}, {9, 0x6100, 0}}, NULL},
    {"vocab with a zero within", 31, 2, 0, {{256, 1, 0}, {9, 0x610061, 0}}, NULL},
    {"vocab with a high byte", 31, 2, 0, {{256, 1, 0}, {9, 0xe1616161, 0}}, NULL},
    {"the last of three", 31, 4, 1, {{256, 3, 0}, {1, 5, 0}, {4, 0, 1}, {9, 31, 0}}, "a"},
};

static void check_bad_rows(const struct bad_rows *given)
{
    uint8_t *rows = rows_of(given->rows, given->row_count);
    for (size_t at = 0; at < COUNT(text_rooms); at++)
        write_text(rows, ROW_BYTES * given->row_count, (const uint8_t *)given->store,
                   given->store_length, text_rooms[at],
                   text_rooms[at] < TEXT_ROOM ? 20 : given->error, NULL, 0, given->name);
    free(rows);
}

/* A float is written as printf writes it, for every sign and exponent. */
static void check_floats(void)
{
    static const uint64_t fractions[] = {1, 0x8000000000000, 0xfffffffffffff, 0x123456789abcd};
    for (uint64_t high = 0; high < 4096; high++)
        for (int whole = 0; whole < 2; whole++) {
            uint64_t bits = high << 52 | (whole ? 0 : fractions[high % COUNT(fractions)]);
            int finite = (high & 0x7ff) != 0x7ff;
            double number;
            char text[40];
            uint32_t numbers[2][3] = {{256, 1, 0}, {10, (uint32_t)bits, (uint32_t)(bits >> 32)}};
            uint8_t *rows = rows_of(numbers, 2);
            memcpy(&number, &bits, sizeof number);
            size_t length = (size_t)snprintf(text, sizeof text, "%.13a", number);
            write_text(rows, 2 * ROW_BYTES, NULL, 0, TEXT_ROOM, finite ? 0 : 31, text, length,
                       text);
            read_text(text, length, ROWS_ROOM, STORE_ROOM, finite ? 0 : 32, rows, 2, NULL, 0,
                      text);
            free(rows);
        }
}

/* Every byte of a string and of a blob. */
static void check_bytes(void)
{
    for (unsigned byte = 0; byte < 256; byte++) {
        uint32_t string[2][3] = {{256, 1, 0}, {4, 0, 1}};
        uint32_t blob[2][3] = {{256, 1, 0}, {12, 0, 1}};
        uint8_t *string_rows = rows_of(string, 2);
        uint8_t *blob_rows = rows_of(blob, 2);
        uint8_t store = (uint8_t)byte;
        char text[16];
        int plain = byte >= 32 && byte <= 126;
        size_t length = (size_t)snprintf(
            text, sizeof text,
            byte == '"' || byte == '\\' ? "\"\\%c\"" : plain ? "\"%c\"" : "\"\\%03o\"", byte);
        write_text(string_rows, 2 * ROW_BYTES, &store, 1, TEXT_ROOM, byte == 0 ? 30 : 0, text,
                   length, text);
        read_text(text, length, ROWS_ROOM, STORE_ROOM, byte == 0 ? 32 : 0, string_rows, 2, &store,
                  1, text);
        length = (size_t)snprintf(text, sizeof text, "{%u}", byte);
        write_text(blob_rows, 2 * ROW_BYTES, &store, 1, TEXT_ROOM, 0, text, length, text);
        read_text(text, length, ROWS_ROOM, STORE_ROOM, 0, blob_rows, 2, &store, 1, text);
        free(blob_rows);
        free(string_rows);
    }
}

/* A blob or a string of so many bytes, each of which takes four characters. */
static void check_run_up_to(int is_string, uint32_t length, uint64_t error)
{
    const char *name = is_string ? "a string at the limit" : "a blob at the limit";
    uint32_t numbers[2][3] = {{256, 1, 0}, {is_string ? 4 : 12, 0, length}};
    uint8_t *rows = rows_of(numbers, 2);
    uint8_t *store = new_buffer(length);
    char *text = (char *)new_buffer(4 * (size_t)length + 8);
    size_t at = 0;
    memset(store, 200, length);
    text[at++] = is_string ? '"' : '{';
    for (uint32_t byte = 0; byte < length; byte++)
        at += (size_t)sprintf(text + at, is_string ? "\\310" : byte == 0 ? "200" : " 200");
    text[at++] = is_string ? '"' : '}';
    write_text(rows, 2 * ROW_BYTES, store, length, TEXT_ROOM, error, text, at, name);
    read_text(text, at, ROWS_ROOM, STORE_ROOM, error, rows, 2, store, length, name);
    free(text);
    free(store);
    free(rows);
}

/* 1,022 ints of eleven characters have 4,096 bytes, one more has too many. */
static void check_ints_up_to(uint32_t count, uint64_t error)
{
    uint8_t *rows = new_buffer(ROW_BYTES * (size_t)(count + 1));
    char *text = (char *)new_buffer(12 * (size_t)count + 1);
    size_t at = 0;
    put_words(rows, (uint32_t[]){256, count, 0}, 3);
    for (uint32_t row = 1; row <= count; row++) {
        put_words(rows + ROW_BYTES * (size_t)row, (uint32_t[]){1, 0x80000000, 0}, 3);
        at += (size_t)sprintf(text + at, row == 1 ? "-2147483648" : " -2147483648");
    }
    write_text(rows, ROW_BYTES * (size_t)(count + 1), NULL, 0, TEXT_ROOM, error, text, at,
               "ints at the limit");
    read_text(text, at, ROWS_ROOM, STORE_ROOM, error, rows, count + 1, NULL, 0,
              "ints at the limit");
    free(text);
    free(rows);
}

/* 511 infinities have 4,096 bytes and no text form; 512 are too long, which comes first. */
static void check_infinities(uint32_t count, uint64_t error)
{
    uint8_t *rows = new_buffer(ROW_BYTES * (size_t)(count + 1));
    put_words(rows, (uint32_t[]){256, count, 0}, 3);
    for (uint32_t row = 1; row <= count; row++)
        put_words(rows + ROW_BYTES * (size_t)row, (uint32_t[]){10, 0, 0x7ff00000}, 3);
    write_text(rows, ROW_BYTES * (size_t)(count + 1), NULL, 0, TEXT_ROOM, error, NULL, 0,
               "infinities");
    free(rows);
}

/* Brackets in each other are judged at any depth: 27, and 32 where one is lost. */
static void check_deep(size_t depth)
{
    char *text = (char *)new_buffer(2 * depth);
    memset(text, '(', depth);
    memset(text + depth, ')', depth);
    refuse_text(text, 2 * depth, 27, "nested brackets");
    refuse_text(text, 2 * depth - 1, 32, "nested brackets, the last lost");
    refuse_text(text + 1, 2 * depth - 1, 32, "nested brackets, the first lost");
    text[depth - 1] = '1';
    refuse_text(text, 2 * depth, 32, "nested brackets, one of them a 1");
    free(text);
}

/* "A pointer with length 0 may be null." */
static void check_null(void)
{
    static const uint32_t empty[1][3] = {{256, 0, 0}};
    uint8_t *rows = rows_of(empty, 1);
    cinder_write_result written = cinder_text_encode(NULL, 0, NULL, 0, NULL, 0);
    check(written.error == 20 && written.written == 0, "null areas", "writing");
    cinder_text_result read = cinder_text_decode(NULL, 0, NULL, 0, NULL, 0);
    check(read.error == 20 && read.rows == 0 && read.stored == 0, "null areas", "reading");
    uint8_t *text = new_buffer(TEXT_ROOM);
    written = cinder_text_encode(NULL, 0, NULL, 0, text, TEXT_ROOM);
    check(written.error == 30 && written.written == 0, "null rows", "writing");
    written = cinder_text_encode(rows, ROW_BYTES, NULL, 0, text, TEXT_ROOM);
    check(written.error == 0 && written.written == 0, "null store", "writing");
    check(holds(text, TEXT_ROOM, NULL, 0), "null rows and store", "text area");
    uint8_t *found = new_buffer(ROWS_ROOM);
    uint8_t *store = new_buffer(STORE_ROOM);
    read = cinder_text_decode(NULL, 0, found, ROWS_ROOM, store, STORE_ROOM);
    check(read.error == 0 && read.rows == 1 && read.stored == 0, "null text", "reading");
    check(holds(found, ROWS_ROOM, rows, ROW_BYTES), "null text", "rows area");
    check(holds(store, STORE_ROOM, NULL, 0), "null text", "store area");
    free(store);
    free(found);
    free(text);
    free(rows);
}

int main(void)
{
    check(CINDER_TEXT_ROOM == TEXT_ROOM && CINDER_LIST_ROOM == LIST_LIMIT, "header", "rooms");
    check_null();
    for (size_t at = 0; at < COUNT(text_cases); at++) {
        check_case(&text_cases[at]);
        check_damaged(&text_cases[at]);
    }
    for (size_t at = 0; at < COUNT(bad_texts); at++)
        refuse_text(bad_texts[at], strlen(bad_texts[at]), 32, bad_texts[at]);
    for (size_t at = 0; at < COUNT(bad_rows); at++)
        check_bad_rows(&bad_rows[at]);
    check_floats();
    check_bytes();
    check_run_up_to(0, 4084, 0);
    check_run_up_to(0, 4085, 28);
    check_run_up_to(1, 4083, 0);
    check_run_up_to(1, 4084, 28);
    check_ints_up_to(1022, 0);
    check_ints_up_to(1023, 28);
    check_ints_up_to(5000, 28);
    check_infinities(511, 31);
    check_infinities(512, 28);
    check_deep(8);
    check_deep(DEEP);
    return finish();
}
