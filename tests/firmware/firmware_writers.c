/* The writers: every packet type and payload length, read back; the lists of the table of
 * list cases, written again; rows and stores that describe no list; buffers of every size. */

#include "checks.h"
#include "cinder.h"
#include "list_cases.h"
#include "packets.h"

#include <stdlib.h>
#include <string.h>

enum { PAYLOADS = 300 };

static void check_answer(cinder_write_result found, uint64_t error, size_t written,
                         const char *name)
{
    check(found.error == error, name, "error");
    check(found.written == written, name, "written");
}

/* The bytes that were written are read as their message, whatever the room above 256 bytes. */
static void read_back(uint8_t type, const uint8_t *payload, size_t length, const uint8_t *packet,
                      size_t size, const char *name)
{
    uint8_t message[PACKET_ROOM];
    size_t wanted = message_with(type, payload, length, message);
    uint8_t *given = copy_of(packet, size);
    for (size_t room = PACKET_ROOM; room <= PACKET_ROOM + 9; room += 9) {
        uint8_t *found = new_buffer(room);
        cinder_packet_result read = cinder_packet_decode(given, size, found, room);
        check(read.error == 0, name, "error of reading back");
        check(read.consumed == size, name, "consumed of reading back");
        check(holds(found, room, message, wanted), name, "message buffer");
        free(found);
    }
    free(given);
}

/* Writes a packet into a buffer of this size; on success it must be `wanted`, and is read
 * back. */
static void write_packet(uint64_t type, const uint8_t *payload, size_t length, size_t room,
                         uint64_t error, const uint8_t *wanted, size_t wanted_length,
                         const char *name)
{
    uint8_t *given = copy_of(payload, length);
    uint8_t *packet = new_buffer(room);
    size_t written = error == 0 ? wanted_length : 0;
    check_answer(cinder_packet_encode(type, given, length, packet, room), error, written, name);
    check(holds(packet, room, wanted, written), name, "packet buffer");
    if (error == 0)
        read_back((uint8_t)type, payload, length, packet, written, name);
    free(packet);
    free(given);
}

static void check_bench_packets(void)
{
    static const uint8_t ping[] = {0x00, 0x04, 0x02, 0x01, 0x02, 0x01};
    static const uint8_t ack[] = {0x00, 0x0e, 0x0e, 0x02, 0x0a, 0x07, 0x06, 0x01,
                                  0x02, 0x03, 0x04, 0x05, 0x06, 0x07, 0x08, 0x01};
    static const uint8_t ack_payload[] = {7, 6, 1, 2, 3, 4, 5, 6, 7, 8};
    static const uint8_t data[] = {0x00, 0x0d, 0x04, 0x04, 0x09, 0x05, 0x01, 0x01,
                                   0x02, 0x07, 0x01, 0x01, 0x03, 0x01, 0x0e};
    static const uint8_t data_payload[] = {5, 0, 0, 0, 7, 0, 0, 0, 1};
    write_packet(PING, NULL, 0, PACKET_ROOM, 0, ping, sizeof ping, "PING");
    write_packet(ACK, ack_payload, sizeof ack_payload, PACKET_ROOM, 0, ack, sizeof ack, "ACK");
    write_packet(DEVICE_DATA, data_payload, sizeof data_payload, PACKET_ROOM, 0, data,
                 sizeof data, "DEVICE_DATA");
}

/* Payloads that differ in their zeros; the last kind has a checksum of 0. */
enum payload_kind { SOME_ZEROS, NO_ZEROS, ALL_ZEROS, SUM_OF_ZERO, PAYLOAD_KINDS };

static void put_payload_of(enum payload_kind kind, uint8_t type, uint8_t *payload, size_t length)
{
    put_payload(payload, length);
    for (size_t at = 0; at < length && kind == NO_ZEROS; at++)
        payload[at] |= 1;
    for (size_t at = 0; at < length && kind == ALL_ZEROS; at++)
        payload[at] = 0;
    if (kind == SUM_OF_ZERO && length > 0) {
        uint8_t message[PACKET_ROOM];
        size_t end = message_with(type, payload, length, message);
        payload[length - 1] ^= message[end - 1];
    }
}

/* Writes into areas of every size. */
static void write_into_areas(uint64_t type, const uint8_t *payload, size_t length)
{
    static const size_t rooms[] = {0, PACKET_ROOM - 1, PACKET_ROOM, PACKET_ROOM + 9};
    uint8_t packet[PACKET_ROOM];
    int allowed = payload_allowed(type, length);
    size_t size = allowed ? packet_with((uint8_t)type, payload, length, packet) : 0;
    for (size_t at = 0; at < sizeof rooms / sizeof rooms[0]; at++) {
        uint64_t error = rooms[at] < PACKET_ROOM ? 20 : allowed ? 0 : 8;
        write_packet(type, payload, length, rooms[at], error, packet, size,
                     "every type and payload length");
    }
}

/* Every type that a byte can say with every payload length. */
static void check_types_and_lengths(void)
{
    for (uint64_t type = 0; type <= UINT8_MAX; type++)
        for (size_t length = 0; length <= PAYLOADS; length++) {
            uint8_t payload[PAYLOADS];
            int kinds = payload_allowed(type, length) ? PAYLOAD_KINDS : 1;
            for (int kind = 0; kind < kinds; kind++) {
                put_payload_of(kind, (uint8_t)type, payload, length);
                write_into_areas(type, payload, length);
            }
        }
}

/* Types above a byte whose low byte is that of a type. */
static void check_types_above(void)
{
    static const uint64_t above[] = {256, UINT64_C(1) << 32, UINT64_MAX - 255};
    for (uint64_t type = PING; type <= LOG; type++)
        for (size_t length = 0; length <= PAYLOADS; length++)
            for (size_t at = 0; at < sizeof above / sizeof above[0]; at++) {
                uint8_t payload[PAYLOADS];
                put_payload(payload, length);
                write_packet(type + above[at], payload, length, PACKET_ROOM, 8, NULL, 0,
                             "a type above a byte");
            }
}

/* Writes rows and store into a buffer of this size; on success it must be `wanted`. */
static void write_list(const uint8_t *rows, size_t rows_length, const uint8_t *store,
                       size_t store_length, size_t room, uint64_t error, const uint8_t *wanted,
                       size_t wanted_length, const char *name)
{
    uint8_t *given_rows = copy_of(rows, rows_length);
    uint8_t *given_store = copy_of(store, store_length);
    uint8_t *list = new_buffer(room);
    size_t written = error == 0 ? wanted_length : 0;
    check_answer(
        cinder_list_encode(given_rows, rows_length, given_store, store_length, list, room), error,
        written, name);
    check(holds(list, room, wanted, written), name, "list buffer");
    free(list);
    free(given_store);
    free(given_rows);
}

/* A list that is read with no error: written again into buffers of every size, then with
 * rows cut at every byte or followed by a part of one, and with more or fewer store bytes. */
static void check_case(const struct list_case *given)
{
    static const size_t rooms[] = {0, LIST_LIMIT - 1, LIST_LIMIT, LIST_LIMIT + 1};
    const uint8_t *store = (const uint8_t *)given->store;
    uint8_t more[12 * ROW_BYTES] = {0};
    size_t length;
    uint8_t *bytes = list_bytes(given, &length);
    uint8_t *rows = list_rows(given);
    size_t rows_length = ROW_BYTES * given->row_count;
    for (size_t at = 0; at < sizeof rooms / sizeof rooms[0]; at++)
        write_list(rows, rows_length, store, given->store_length, rooms[at],
                   rooms[at] < LIST_LIMIT ? 20 : 0, bytes, given->consumed, given->name);
    for (size_t there = 0; there < rows_length; there++)
        write_list(rows, there, store, given->store_length, LIST_LIMIT, 30, NULL, 0, given->name);
    memcpy(more, rows, rows_length);
    for (size_t there = rows_length + 1; there <= rows_length + ROW_BYTES; there++)
        write_list(more, there, store, given->store_length, LIST_LIMIT, 30, NULL, 0, given->name);
    memset(more, 0, sizeof more);
    if (given->store_length > 0) {
        memcpy(more, store, given->store_length);
        write_list(rows, rows_length, store, given->store_length - 1, LIST_LIMIT, 30, NULL, 0,
                   given->name);
    }
    write_list(rows, rows_length, more, given->store_length + 1, LIST_LIMIT, 30, NULL, 0,
               given->name);
    free(rows);
    free(bytes);
}

/* What the reader gives is written as the bytes that were read. */
static void check_read_back(const struct list_case *given)
{
    size_t length;
    uint8_t *bytes = list_bytes(given, &length);
    uint8_t *rows = new_buffer(ROWS_ROOM);
    uint8_t *store = new_buffer(STORE_ROOM);
    cinder_list_result read =
        cinder_list_decode(bytes, length, rows, ROWS_ROOM, store, STORE_ROOM);
    check(read.error == 0 && read.depth == 0, given->name, "read");
    write_list(rows, ROW_BYTES * read.rows, store, read.stored, LIST_LIMIT, 0, bytes,
               read.consumed, given->name);
    free(store);
    free(rows);
    free(bytes);
}

/* Rows that describe no list, or one that is too deep. */
struct bad_rows {
    const char *name;
    uint64_t error;
    size_t row_count;
    size_t store_length;
    uint32_t rows[9][3];
    const char *store;
};

static const struct bad_rows bad_rows[] = {
    {"no rows", 30, 0, 0, {{0}}, NULL},
    {"an int alone", 30, 1, 0, {{1, 5, 0}}, NULL},
    {"a typed list's code", 30, 2, 0, {{257, 1, 0}, {1, 5, 0}}, NULL},
    {"a row missing", 30, 1, 0, {{256, 1, 0}}, NULL},
    {"a row too many", 30, 2, 0, {{256, 0, 0}, {1, 5, 0}}, NULL},
    {"third number of a list", 30, 1, 0, {{256, 0, 1}}, NULL},
    {"third number of an int", 30, 2, 0, {{256, 1, 0}, {1, 5, 1}}, NULL},
    {"third number of a vocab", 30, 2, 0, {{256, 1, 0}, {9, 5, 1}}, NULL},
    {"unknown code", 30, 2, 0, {{256, 1, 0}, {7, 0, 0}}, NULL},
    {"count below 0", 30, 1, 0, {{256, 0x80000000, 0}}, NULL},
    {"string length below 0", 30, 2, 0, {{256, 1, 0}, {4, 0, 0xffffffff}}, NULL},
    {"blob length below 0", 30, 2, 0, {{256, 1, 0}, {12, 0, 0x80000000}}, NULL},
    {"string place", 30, 2, 0, {{256, 1, 0}, {4, 1, 0}}, NULL},
    {"blob longer than the store", 30, 2, 1, {{256, 1, 0}, {12, 0, 2}}, "A"},
    {"store longer than the blob", 30, 2, 2, {{256, 1, 0}, {12, 0, 1}}, "AB"},
    {"blobs that overlap", 30, 3, 2, {{256, 2, 0}, {12, 0, 2}, {12, 1, 1}}, "AB"},
    {"blobs in the wrong order", 30, 3, 2, {{256, 2, 0}, {12, 1, 1}, {12, 0, 1}}, "AB"},
    {"a string of one zero", 30, 2, 1, {{256, 1, 0}, {4, 0, 1}}, "\0"},
    {"zero within a string", 30, 2, 3, {{256, 1, 0}, {4, 0, 3}}, "A\0A"},
    {"nine nested", 27, 9, 0,
     {{256, 1, 0}, {256, 1, 0}, {256, 1, 0}, {256, 1, 0}, {256, 1, 0}, {256, 1, 0}, {256, 1, 0},
      {256, 1, 0}, {256, 0, 0}}, NULL},
    {"nine nested, a row missing", 30, 9, 0,
     {{256, 1, 0}, {256, 1, 0}, {256, 1, 0}, {256, 1, 0}, {256, 1, 0}, {256, 1, 0}, {256, 1, 0},
      {256, 1, 0}, {256, 1, 0}}, NULL},
};

static void check_bad_rows(const struct bad_rows *given)
{
    uint8_t rows[9 * ROW_BYTES];
    for (size_t row = 0; row < given->row_count; row++)
        put_words(rows + ROW_BYTES * row, given->rows[row], 3);
    for (size_t room = LIST_LIMIT - 1; room <= LIST_LIMIT; room++)
        write_list(rows, ROW_BYTES * given->row_count, (const uint8_t *)given->store,
                   given->store_length, room, room < LIST_LIMIT ? 20 : given->error, NULL, 0,
                   given->name);
}

/* 1,022 ints have 4,096 bytes, one more has too many; a blob of 4,084 and of 4,085. */
static void check_limit(void)
{
    uint8_t *bytes = new_buffer(LIST_LIMIT);
    uint8_t *store = new_buffer(LIST_LIMIT);
    uint8_t blob_rows[2 * ROW_BYTES];
    put_ints(bytes, LIST_LIMIT, 1022);
    for (size_t row_count = 1023; row_count <= 1026; row_count++) {
        uint8_t *rows = int_rows(row_count);
        write_list(rows, ROW_BYTES * row_count, NULL, 0, LIST_LIMIT, row_count == 1023 ? 0 : 28,
                   bytes, LIST_LIMIT, "ints up to the limit and beyond");
        free(rows);
    }
    for (uint32_t length = 4084; length <= 4085; length++) {
        uint32_t numbers[6] = {256, 1, 0, 12, 0, length};
        uint32_t header[3] = {268, 1, length};
        put_words(blob_rows, numbers, 6);
        put_words(bytes, header, 3);
        memcpy(bytes + 12, store, 4084);
        write_list(blob_rows, sizeof blob_rows, store, length, LIST_LIMIT, length == 4084 ? 0 : 28,
                   bytes, LIST_LIMIT, "a blob up to the limit and beyond");
    }
    free(store);
    free(bytes);
}

/* "A pointer with length 0 may be null." */
static void check_null(void)
{
    uint8_t *buffer = new_buffer(LIST_LIMIT);
    check_answer(cinder_packet_encode(PING, NULL, 0, NULL, 0), 20, 0, "null packet buffer");
    check_answer(cinder_list_encode(NULL, 0, NULL, 0, NULL, 0), 20, 0, "null list buffer");
    check_answer(cinder_list_encode(NULL, 0, NULL, 0, buffer, LIST_LIMIT), 30, 0, "null rows");
    check(holds(buffer, LIST_LIMIT, NULL, 0), "null rows", "list buffer");
    check_answer(cinder_packet_encode(LOG, NULL, 0, buffer, LIST_LIMIT), 0, 6, "null payload");
    free(buffer);
}

int main(void)
{
    check_null();
    check_bench_packets();
    check_types_and_lengths();
    check_types_above();
    for (size_t at = 0; at < list_case_count; at++)
        if (list_cases[at].error == 0) {
            check_case(&list_cases[at]);
            check_read_back(&list_cases[at]);
        }
    for (size_t at = 0; at < sizeof bad_rows / sizeof bad_rows[0]; at++)
        check_bad_rows(&bad_rows[at]);
    check_limit();
    return finish();
}
