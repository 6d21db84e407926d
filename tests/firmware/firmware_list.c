/* The display firmware's use of the list reader: the table of list cases into buffers of
 * every size, and lists at the limit of 4,096 bytes. */

#include "checks.h"
#include "cinder.h"
#include "list_cases.h"

#include <stdlib.h>

static void check_answer(cinder_list_result found, cinder_list_result owed, const char *name)
{
    check(found.error == owed.error, name, "error");
    check(found.consumed == owed.consumed, name, "consumed");
    check(found.rows == owed.rows, name, "rows");
    check(found.offset == owed.offset, name, "offset");
    check(found.stored == owed.stored, name, "stored");
    check(found.depth == owed.depth, name, "depth");
}

static void decode_into(const struct list_case *given, size_t rows_room, size_t store_room)
{
    static const cinder_list_result too_small = {.error = 20};
    int large_enough = rows_room >= ROWS_ROOM && store_room >= STORE_ROOM;
    cinder_list_result owed = {given->error,  given->consumed,     given->row_count,
                               given->offset, given->store_length, given->depth};
    size_t length;
    uint8_t *bytes = list_bytes(given, &length);
    uint8_t *wanted_rows = list_rows(given);
    uint8_t *rows = new_buffer(rows_room);
    uint8_t *store = new_buffer(store_room);

    cinder_list_result found =
        cinder_list_decode(bytes, length, rows, rows_room, store, store_room);
    check_answer(found, large_enough ? owed : too_small, given->name);
    check(holds(rows, rows_room, wanted_rows, large_enough ? ROW_BYTES * given->row_count : 0),
          given->name, "rows buffer");
    check(holds(store, store_room, (const uint8_t *)given->store,
                large_enough ? given->store_length : 0),
          given->name, "store buffer");
    free(store);
    free(rows);
    free(wanted_rows);
    free(bytes);
}

static void check_table(void)
{
    static const size_t rows_rooms[] = {0, ROWS_ROOM - ROW_BYTES, ROWS_ROOM - 1, ROWS_ROOM,
                                        ROWS_ROOM + 1, ROWS_ROOM + ROW_BYTES};
    static const size_t store_rooms[] = {0, STORE_ROOM - 1, STORE_ROOM, STORE_ROOM + 1};
    for (size_t at = 0; at < list_case_count; at++)
        for (size_t row = 0; row < sizeof rows_rooms / sizeof rows_rooms[0]; row++)
            for (size_t store = 0; store < sizeof store_rooms / sizeof store_rooms[0]; store++)
                decode_into(&list_cases[at], rows_rooms[row], store_rooms[store]);
}

/* Every beginning of an accepted list ends inside an item, at the depth that is counted there,
 * and leaves the buffers alone. */
static void check_cut(const struct list_case *given)
{
    for (size_t there = 0; there < given->consumed; there++) {
        size_t length;
        uint8_t *whole = list_bytes(given, &length);
        uint8_t *bytes = copy_of(whole, there);
        uint8_t *rows = new_buffer(ROWS_ROOM);
        uint8_t *store = new_buffer(STORE_ROOM);
        cinder_list_result found =
            cinder_list_decode(bytes, there, rows, ROWS_ROOM, store, STORE_ROOM);
        check(found.error == 21 && found.consumed == 0 && found.rows == 0 && found.stored == 0,
              given->name, "cut");
        check(found.offset <= there, given->name, "offset of the cut");
        check(found.offset <= there && found.depth == lists_open(bytes, found.offset),
              given->name, "depth of the cut");
        check(holds(rows, ROWS_ROOM, NULL, 0), given->name, "rows buffer when cut");
        check(holds(store, STORE_ROOM, NULL, 0), given->name, "store buffer when cut");
        free(store);
        free(rows);
        free(bytes);
        free(whole);
    }
}

/* A typed list of ints with this count, of which `there` bytes are given. */
static void check_ints(uint32_t count, size_t there, cinder_list_result owed, const char *name)
{
    uint8_t *bytes = new_buffer(there);
    uint8_t *rows = new_buffer(ROWS_ROOM);
    uint8_t *store = new_buffer(STORE_ROOM);
    uint8_t *wanted = int_rows(owed.rows);
    put_ints(bytes, there, count);
    check_answer(cinder_list_decode(bytes, there, rows, ROWS_ROOM, store, STORE_ROOM), owed, name);
    check(holds(rows, ROWS_ROOM, wanted, ROW_BYTES * owed.rows), name, "rows buffer");
    check(holds(store, STORE_ROOM, NULL, 0), name, "store buffer");
    free(wanted);
    free(store);
    free(rows);
    free(bytes);
}

/* A list of one blob that ends at `end` and of a further element, if there is one. */
static void check_blob_up_to(uint32_t end, uint32_t count, cinder_list_result owed)
{
    uint32_t header[4] = {256, count, 12, end - 16};
    uint8_t *bytes = new_buffer(end);
    uint8_t *rows = new_buffer(ROWS_ROOM);
    uint8_t *store = new_buffer(STORE_ROOM);
    put_words(bytes, header, 4);
    check_answer(cinder_list_decode(bytes, end, rows, ROWS_ROOM, store, STORE_ROOM), owed,
                 "blob before the limit");
    check(holds(rows, ROWS_ROOM, NULL, 0), "blob before the limit", "rows buffer");
    check(holds(store, STORE_ROOM, NULL, 0), "blob before the limit", "store buffer");
    free(store);
    free(rows);
    free(bytes);
}

static void check_limit(void)
{
    static const cinder_list_result full = {.consumed = 4096, .rows = 1023};
    static const cinder_list_result beyond = {.error = 28, .offset = 4096, .depth = 1};
    check_ints(1022, 4096, full, "1,022 ints");
    check_ints(1022, 4100, full, "1,022 ints and later bytes");
    check_ints(1023, 4100, beyond, "1,023 ints");
    check_ints(1023, 4096, beyond, "1,023 ints, the last not there");
    check_ints(1023, 4092, (cinder_list_result){.error = 21, .offset = 4092, .depth = 1},
               "1,023 ints, two not there");
    check_ints(0x7fffffff, 5000, beyond, "as many ints as a count can say");
    check_blob_up_to(4096, 1, (cinder_list_result){.error = 24, .depth = 1});
    check_blob_up_to(4096, 2, beyond);
    check_blob_up_to(4093, 2, (cinder_list_result){.error = 28, .offset = 4093, .depth = 1});
    check_blob_up_to(4092, 2, (cinder_list_result){.error = 21, .offset = 4092, .depth = 1});
}

/* "A pointer with length 0 may be null." */
static void check_null(void)
{
    uint8_t *rows = new_buffer(ROWS_ROOM);
    uint8_t *store = new_buffer(STORE_ROOM);
    check_answer(cinder_list_decode(NULL, 0, rows, ROWS_ROOM, store, STORE_ROOM),
                 (cinder_list_result){.error = 21}, "null bytes");
    check(holds(rows, ROWS_ROOM, NULL, 0), "null bytes", "rows buffer");
    check(holds(store, STORE_ROOM, NULL, 0), "null bytes", "store buffer");
    check_answer(cinder_list_decode(NULL, 0, NULL, 0, NULL, 0),
                 (cinder_list_result){.error = 20}, "null buffers");
    free(store);
    free(rows);
}

int main(void)
{
    check_null();
    check_table();
    for (size_t at = 0; at < list_case_count; at++)
        check_cut(&list_cases[at]);
    check_limit();
    return finish();
}
