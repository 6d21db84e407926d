/* Times the archive's packet writing and list reading against the C calls of plain/: packets
 * against the plain writer, lists and streams against the tuned reader. Prints a line for each
 * case: its name, then nanoseconds of the C call and of the archive's. The fastest of 60 samples
 * counts, the two sides taken in turn. Fails where the sides' answers or areas differ.
 * placement.sh links it into programs that differ in where the code stands. */

#include "cinder.h"
#include "plain/plain.h"
#include <stdio.h>
#include <stdlib.h>
#include <string.h>
#include <time.h>

enum { SAMPLES = 60, SAMPLE_NS = 2000000 };
enum { PING = 1, ACK = 2, DEVICE_DATA = 4 };
enum { INT = 1, STRING = 4, VOCAB = 9, BLOB = 12, LIST = 256 };

static uint8_t bytes[CINDER_LIST_ROOM];
static size_t length;

/* What a call writes: a packet, or rows and store. */
static _Alignas(16) struct {
    uint8_t rows[CINDER_ROWS_ROOM];
    uint8_t store[CINDER_STORE_ROOM];
    uint8_t packet[CINDER_PACKET_ROOM];
} areas, c_areas;

typedef cinder_write_result write_call(uint64_t, const uint8_t *, size_t, uint8_t *, size_t);
typedef cinder_list_result next_call(const uint8_t *, size_t, uint64_t, uint8_t *, size_t,
                                     uint8_t *, size_t);

/* One side of a case: a packet of this type, or all lists of the bytes. */
struct side {
    write_call *write;
    next_call *next;
    uint64_t type;
};

/* The bytes written or read. Volatile, so that no call is left out. */
static volatile uint64_t answer;

static void call(const struct side *side)
{
    const uint8_t *front = bytes;
    __asm__ volatile("" : "+r"(front) : : "memory");
    if (side->write != NULL) {
        answer =
            side->write(side->type, front, length, areas.packet, sizeof areas.packet).written;
        return;
    }
    uint64_t at = 0;
    while (at < length) {
        cinder_list_result list =
            side->next(front, length, at, areas.rows, sizeof areas.rows, areas.store,
                       sizeof areas.store);
        if (list.error != 0)
            break;
        at += list.consumed;
    }
    answer = at;
}

static double sample(const struct side *side, long times)
{
    struct timespec from, to;
    clock_gettime(CLOCK_MONOTONIC, &from);
    for (long time = 0; time < times; time++)
        call(side);
    clock_gettime(CLOCK_MONOTONIC, &to);
    return ((double)(to.tv_sec - from.tv_sec) * 1e9 + (double)(to.tv_nsec - from.tv_nsec)) /
           (double)times;
}

/* The answer of one call on areas of zeros. */
static uint64_t outcome(const struct side *side)
{
    memset(&areas, 0, sizeof areas);
    sample(side, 1);
    return answer;
}

/* How many calls take the time of a sample. */
static long calls_for_a_sample(const struct side *side)
{
    long times = 1;
    while (sample(side, times) * (double)times < SAMPLE_NS)
        times *= 2;
    return times;
}

static void compare(const char *name, struct side c_side, struct side archive_side)
{
    const struct side *sides[2] = {&c_side, &archive_side};
    double fastest[2] = {1e18, 1e18};
    uint64_t c_answer = outcome(&c_side);
    c_areas = areas;
    if (c_answer == 0 || outcome(&archive_side) != c_answer ||
        memcmp(&areas, &c_areas, sizeof areas) != 0) {
        fprintf(stderr, "%s: the sides differ or refuse\n", name);
        exit(1);
    }
    long times[2] = {calls_for_a_sample(&c_side), calls_for_a_sample(&archive_side)};
    for (int turn = 0; turn < SAMPLES; turn++)
        for (int at = 0; at < 2; at++) {
            double found = sample(sides[at], times[at]);
            if (found < fastest[at])
                fastest[at] = found;
        }
    printf("%s %.2f %.2f\n", name, fastest[0], fastest[1]);
}

static void packet_case(const char *name, uint64_t type)
{
    compare(name, (struct side){.write = plain_packet_encode, .type = type},
            (struct side){.write = cinder_packet_encode, .type = type});
}

static void list_case(const char *name)
{
    compare(name, (struct side){.next = tuned_stream_next},
            (struct side){.next = cinder_stream_next});
}

static void put(uint32_t number)
{
    memcpy(bytes + length, &number, sizeof number);
    length += sizeof number;
}

static void put_list(uint32_t code, uint32_t count)
{
    put(code);
    put(count);
}

/* Ints behind one code, or each behind its own. */
static void put_ints(uint32_t count, int coded)
{
    for (uint32_t number = 0; number < count; number++) {
        if (coded)
            put(INT);
        put(number * 7919);
    }
}

/* One string or blob that fills the bytes. */
static void put_run(uint32_t kind)
{
    put_list(LIST + kind, 1);
    put((uint32_t)(sizeof bytes - length - sizeof(uint32_t)));
    memset(bytes + length, 'a', sizeof bytes - length);
    length = sizeof bytes;
    if (kind == STRING)
        bytes[length - 1] = 0;
}

static void packets(void)
{
    static const uint8_t ack[] = {7, 6, 1, 2, 3, 4, 5, 6, 7, 8};
    static const uint8_t data[] = {5, 0, 0, 0, 7, 0, 0, 0, 1};
    length = 0;
    packet_case("write-packet-ping", PING);
    memcpy(bytes, ack, length = sizeof ack);
    packet_case("write-packet-ack", ACK);
    memcpy(bytes, data, length = sizeof data);
    packet_case("write-packet-data", DEVICE_DATA);
}

static void lists(void)
{
    length = 0;
    put_list(LIST, 0);
    list_case("list-empty");
    length = 0;
    for (int list = 0; list < 8; list++) {
        put_list(LIST + INT, 8);
        put_ints(8, 0);
        if (list == 0)
            list_case("list-8-ints");
    }
    list_case("stream-8-of-8-ints");
    length = 0;
    put_list(LIST + INT, 1022);
    put_ints(1022, 0);
    list_case("list-ints-full");
    length = 0;
    put_list(LIST, 511);
    put(VOCAB);
    put(0);
    put_ints(510, 1);
    list_case("list-untyped-ints-full");
    length = 0;
    put_run(STRING);
    list_case("list-long-string-full");
    length = 0;
    put_run(BLOB);
    list_case("list-blob-full");
}

int main(void)
{
    packets();
    lists();
    return 0;
}
