/* The display firmware's use of the stream step: every list case behind the primes, and
 * series of steps through a stream with buffers of any size. */

#include "checks.h"
#include "cinder.h"
#include "list_cases.h"

#include <stdlib.h>
#include <string.h>

/* What one step owes: its answer, and rows and store bytes at the front of the buffers. */
struct step {
    const char *name;
    cinder_list_result answer;
    const uint8_t *rows;
    const uint8_t *store;
    size_t store_length;
};

static void check_step(const uint8_t *bytes, size_t length, uint64_t offset, size_t rows_room,
                       size_t store_room, const struct step *owed)
{
    uint8_t *rows = new_buffer(rows_room);
    uint8_t *store = new_buffer(store_room);
    cinder_list_result found =
        cinder_stream_next(bytes, length, offset, rows, rows_room, store, store_room);
    check(found.error == owed->answer.error, owed->name, "error");
    check(found.consumed == owed->answer.consumed, owed->name, "consumed");
    check(found.rows == owed->answer.rows, owed->name, "rows");
    check(found.offset == owed->answer.offset, owed->name, "offset");
    check(found.stored == owed->store_length, owed->name, "stored");
    check(found.depth == owed->answer.depth, owed->name, "depth");
    check(holds(rows, rows_room, owed->rows, ROW_BYTES * owed->answer.rows), owed->name,
          "rows buffer");
    check(holds(store, store_room, owed->store, owed->store_length), owed->name, "store buffer");
    free(store);
    free(rows);
}

static const struct step too_small = {"too small a buffer", {.error = 20}, NULL, NULL, 0};
static const struct step at_end = {"the stream's end", {.error = 0}, NULL, NULL, 0};

static struct step past_end(uint64_t offset)
{
    struct step owed = {"past the stream's end", {.error = 21, .offset = offset}, NULL, NULL, 0};
    return owed;
}

/* The step at `front`, where the list of a case stands. */
static void check_case_at(const uint8_t *bytes, size_t length, uint64_t front,
                          const struct list_case *given)
{
    uint8_t *rows = list_rows(given);
    uint64_t offset = given->error == 0 ? 0 : front + given->offset;
    struct step owed = {given->name,
                        {given->error, given->consumed, given->row_count, offset,
                         given->store_length, given->depth},
                        rows,
                        (const uint8_t *)given->store,
                        given->store_length};
    check_step(bytes, length, front, ROWS_ROOM - 1, STORE_ROOM, &too_small);
    check_step(bytes, length, front, ROWS_ROOM, STORE_ROOM, &owed);
    check_step(bytes, length, front, ROWS_ROOM, STORE_ROOM - 1, &too_small);
    check_step(bytes, length, front, ROWS_ROOM + 5, STORE_ROOM + 7, &owed);
    free(rows);
}

/* The primes, and behind them the list of each case, read step by step. */
static void check_behind_primes(const struct list_case *given)
{
    const struct list_case *primes = &list_cases[0];
    size_t front;
    size_t length;
    uint8_t *first = list_bytes(primes, &front);
    uint8_t *second = list_bytes(given, &length);
    uint8_t *bytes = new_buffer(front + length);
    memcpy(bytes, first, front);
    memcpy(bytes + front, second, length);

    check_case_at(bytes, front + length, 0, primes);
    if (length > 0)
        check_case_at(bytes, front + length, front, given);
    check_step(bytes, front + length, front + length, ROWS_ROOM, STORE_ROOM, &at_end);
    free(bytes);
    free(second);
    free(first);
}

/* The primes and the two-list example; the end, past it, and two zeros behind them. */
static void check_examples(void)
{
    const struct list_case *primes = &list_cases[0];
    const struct list_case *two_lists = &list_cases[1];
    static const uint64_t past[] = {113, 114, 4096, UINT64_C(1) << 32, UINT64_MAX};
    struct step inside = {"inside the primes", {.error = 22, .offset = 8}, NULL, NULL, 0};
    struct step zeros = {"two zeros behind", {.error = 21, .offset = 112}, NULL, NULL, 0};
    size_t front;
    size_t length;
    uint8_t *first = list_bytes(primes, &front);
    uint8_t *second = list_bytes(two_lists, &length);
    uint8_t *bytes = new_buffer(114);
    memcpy(bytes, first, front);
    memcpy(bytes + front, second, length);
    memset(bytes + front + length, 0, 2);

    uint8_t *run = copy_of(bytes, 112);
    check_case_at(run, 112, 0, primes);
    check_case_at(run, 112, 40, two_lists);
    check_step(run, 112, 8, ROWS_ROOM, STORE_ROOM, &inside);
    check_step(run, 112, 112, ROWS_ROOM, STORE_ROOM, &at_end);
    check_step(run, 112, 112, 0, STORE_ROOM, &too_small);
    for (size_t at = 0; at < sizeof past / sizeof past[0]; at++) {
        struct step owed = past_end(past[at]);
        check_step(run, 112, past[at], ROWS_ROOM, STORE_ROOM, &owed);
        check_step(run, 112, past[at], ROWS_ROOM, 0, &too_small);
    }
    check_step(bytes, 114, 112, ROWS_ROOM, STORE_ROOM, &zeros);
    free(run);
    free(bytes);
    free(second);
    free(first);
}

/* A stream without lists. */
static void check_empty(void)
{
    struct step owed = past_end(1);
    uint8_t *bytes = new_buffer(0);
    check_step(bytes, 0, 0, ROWS_ROOM, STORE_ROOM, &at_end);
    check_step(bytes, 0, 1, ROWS_ROOM, STORE_ROOM, &owed);
    check_step(bytes, 0, 0, 0, 0, &too_small);
    free(bytes);
}

/* The limit counts from each list's own front: 1,022 ints behind an empty list. */
static void check_limit(void)
{
    static const uint32_t empty_list[2] = {256, 0};
    size_t length = 8 + 4100;
    uint8_t *bytes = new_buffer(length);
    uint8_t *rows = int_rows(1023);
    struct step beyond = {
        "1,023 ints behind a list", {.error = 28, .offset = 8 + 4096, .depth = 1}, NULL, NULL, 0};
    struct step full = {
        "1,022 ints behind a list", {.consumed = 4096, .rows = 1023}, rows, NULL, 0};
    put_words(bytes, empty_list, 2);
    put_ints(bytes + 8, length - 8, 1023);
    check_step(bytes, length, 8, ROWS_ROOM, STORE_ROOM, &beyond);
    put_ints(bytes + 8, length - 8, 1022);
    check_step(bytes, length, 8, ROWS_ROOM, STORE_ROOM, &full);
    check_step(bytes, length, 8, ROWS_ROOM + 12, STORE_ROOM + 1, &full);
    free(rows);
    free(bytes);
}

/* "A pointer with length 0 may be null." */
static void check_null(void)
{
    check_step(NULL, 0, 0, ROWS_ROOM, STORE_ROOM, &at_end);
    cinder_list_result answer = cinder_stream_next(NULL, 0, 0, NULL, 0, NULL, 0);
    check(answer.error == 20 && answer.consumed == 0 && answer.rows == 0 && answer.offset == 0 &&
              answer.stored == 0 && answer.depth == 0,
          "null buffers", "answer");
}

int main(void)
{
    check_null();
    for (size_t at = 0; at < list_case_count; at++)
        check_behind_primes(&list_cases[at]);
    check_examples();
    check_empty();
    check_limit();
    return finish();
}
