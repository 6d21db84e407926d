/* The display firmware's use of the packet reader: document 01's bench cases, one case
 * for each error in the order in which errors are judged, and buffers of every size. */

#include "checks.h"
#include "cinder.h"
#include "packets.h"

#include <stdlib.h>
#include <string.h>

/* A packet as it is handed over and the answer owed. On an error consumed is 0 and
 * there is no message. */
struct packet_case {
    const char *name;
    uint64_t error;
    uint64_t consumed;
    size_t bytes_length;
    size_t message_length;
    uint8_t bytes[24];
    uint8_t message[16];
};

static const struct packet_case cases[] = {
    /* Bench cases. */
    {"PING", 0, 6, 6, 3, {0x00, 0x04, 0x02, 0x01, 0x02, 0x01}, {1, 0, 1}},
    {"PING, last byte 02", 7, 0, 6, 0, {0x00, 0x04, 0x02, 0x01, 0x02, 0x02}, {0}},
    {"PING, L 03", 3, 0, 6, 0, {0x00, 0x03, 0x02, 0x01, 0x02, 0x01}, {0}},
    {"PING, first four bytes", 1, 0, 4, 0, {0x00, 0x04, 0x02, 0x01}, {0}},
    {"zero among the encoded bytes", 4, 0, 4, 0, {0x00, 0x04, 0x02, 0x00}, {0}},
    {"ACK", 0, 16, 16, 13,
     {0x00, 0x0e, 0x0e, 0x02, 0x0a, 0x07, 0x06, 0x01, 0x02, 0x03, 0x04, 0x05, 0x06, 0x07, 0x08, 0x01},
     {2, 10, 7, 6, 1, 2, 3, 4, 5, 6, 7, 8, 1}},
    {"DEVICE_DATA", 0, 15, 15, 12,
     {0x00, 0x0d, 0x04, 0x04, 0x09, 0x05, 0x01, 0x01, 0x02, 0x07, 0x01, 0x01, 0x03, 0x01, 0x0e},
     {4, 9, 5, 0, 0, 0, 7, 0, 0, 0, 1, 14}},
    /* Each error with later ones present too. */
    {"no bytes", 1, 0, 0, 0, {0}, {0}},
    {"first byte 01", 2, 0, 1, 0, {0x01}, {0}},
    {"one byte", 1, 0, 1, 0, {0x00}, {0}},
    {"L 00", 3, 0, 2, 0, {0x00, 0x00}, {0}},
    {"only the header", 1, 0, 2, 0, {0x00, 0x04}, {0}},
    {"zero and cut short", 4, 0, 5, 0, {0x00, 0x09, 0x09, 0x00, 0x01}, {0}},
    {"block passes the end and cut short", 1, 0, 5, 0, {0x00, 0x04, 0x09, 0x01, 0x01}, {0}},
    {"block passes the end", 5, 0, 6, 0, {0x00, 0x04, 0x09, 0x01, 0x01, 0x01}, {0}},
    {"second block passes the end", 5, 0, 6, 0, {0x00, 0x04, 0x02, 0x01, 0x03, 0x01}, {0}},
    {"payload length, checksum and type", 6, 0, 6, 0, {0x00, 0x04, 0x04, 0x06, 0x01, 0x09}, {0}},
    {"checksum and type", 7, 0, 6, 0, {0x00, 0x04, 0x02, 0x06, 0x02, 0x09}, {0}},
    {"type 6", 8, 0, 6, 0, {0x00, 0x04, 0x02, 0x06, 0x02, 0x06}, {0}},
    {"type 0", 8, 0, 6, 0, {0x00, 0x04, 0x01, 0x01, 0x01, 0x01}, {0}},
    {"PING with a payload", 8, 0, 7, 0, {0x00, 0x05, 0x05, 0x01, 0x01, 0x05, 0x05}, {0}},
    {"ACK without payload", 8, 0, 6, 0, {0x00, 0x04, 0x02, 0x02, 0x02, 0x02}, {0}},
    /* Later bytes are ignored. */
    {"PING and a zero behind it", 0, 6, 7, 3, {0x00, 0x04, 0x02, 0x01, 0x02, 0x01, 0x00}, {1, 0, 1}},
    {"LOG without payload", 0, 6, 6, 3, {0x00, 0x04, 0x02, 0x05, 0x02, 0x05}, {5, 0, 5}},
};

static void decode_into(const struct packet_case *given, size_t message_room)
{
    uint8_t *bytes = copy_of(given->bytes, given->bytes_length);
    uint8_t *message = new_buffer(message_room);
    int large_enough = message_room >= PACKET_ROOM;
    uint64_t error = large_enough ? given->error : 20;
    uint64_t consumed = large_enough ? given->consumed : 0;
    size_t message_length = large_enough ? given->message_length : 0;

    cinder_packet_result answer =
        cinder_packet_decode(bytes, given->bytes_length, message, message_room);
    check(answer.error == error, given->name, "error");
    check(answer.consumed == consumed, given->name, "consumed");
    check(holds(message, message_room, given->message, message_length), given->name, "message");
    free(message);
    free(bytes);
}

static void check_table(void)
{
    static const size_t rooms[] = {0, 1, PACKET_ROOM - 1, PACKET_ROOM, PACKET_ROOM + 1, 300};
    for (size_t at = 0; at < sizeof cases / sizeof cases[0]; at++)
        for (size_t room = 0; room < sizeof rooms / sizeof rooms[0]; room++)
            decode_into(&cases[at], rooms[room]);
}

/* The first bytes of a packet that as a whole gives this error, or none. */
static void check_cut(const uint8_t *packet, size_t length, size_t there, uint64_t error,
                      const uint8_t *message)
{
    const char *name = "every type and payload length";
    int good = there == length && error == 0;
    uint8_t *bytes = copy_of(packet, there);
    uint8_t *buffer = new_buffer(PACKET_ROOM);
    cinder_packet_result answer = cinder_packet_decode(bytes, there, buffer, PACKET_ROOM);
    check(answer.error == (there == length ? error : 1), name, "error");
    check(answer.consumed == (good ? length : 0), name, "consumed");
    check(holds(buffer, PACKET_ROOM, message, good ? length - 3 : 0), name, "message");
    free(buffer);
    free(bytes);
}

/* LOG with 251 bytes of 11: one block of code 255, which is the whole part. */
static void check_whole_block(void)
{
    uint8_t payload[PAYLOAD_LIMIT];
    uint8_t message[PACKET_ROOM];
    uint8_t packet[PACKET_ROOM];
    memset(payload, 11, PAYLOAD_LIMIT);
    size_t message_length = message_with(LOG, payload, PAYLOAD_LIMIT, message);
    size_t length = packet_of(message, message_length, packet);
    check(length == PACKET_ROOM && packet[2] == 255, "one block of code 255", "packet");
    check_cut(packet, length, length, 0, message);
}

/* Every type and every payload length, whole; LOG also cut at every byte. */
static void check_types_and_lengths(void)
{
    for (int type = 0; type <= 6; type++) {
        for (size_t payload_length = 0; payload_length <= PAYLOAD_LIMIT; payload_length++) {
            uint8_t payload[PAYLOAD_LIMIT];
            uint8_t message[PACKET_ROOM];
            uint8_t packet[PACKET_ROOM];
            put_payload(payload, payload_length);
            size_t message_length =
                message_with((uint8_t)type, payload, payload_length, message);
            size_t length = packet_of(message, message_length, packet);
            uint64_t error = payload_allowed((uint64_t)type, payload_length) ? 0 : 8;
            size_t first = type == 5 ? 0 : length;
            for (size_t there = first; there <= length; there++)
                check_cut(packet, length, there, error, message);
        }
    }
}

/* "A pointer with length 0 may be null." */
static void check_null(void)
{
    uint8_t *message = new_buffer(PACKET_ROOM);
    cinder_packet_result answer = cinder_packet_decode(NULL, 0, message, PACKET_ROOM);
    check(answer.error == 1 && answer.consumed == 0, "null bytes", "answer");
    check(holds(message, PACKET_ROOM, NULL, 0), "null bytes", "message");
    answer = cinder_packet_decode(NULL, 0, NULL, 0);
    check(answer.error == 20 && answer.consumed == 0, "null areas", "answer");
    free(message);
}

int main(void)
{
    check_null();
    check_table();
    check_types_and_lengths();
    check_whole_block();
    return finish();
}
