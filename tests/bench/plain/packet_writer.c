/*
 * Writes a packet in one pass: a byte goes to its place in the packet, a zero closes the block
 * that is open. The code of a block is written once the block is closed.
 */
#include "packet.h"
#include "plain.h"

/* Where the next byte goes, and the code of the block that is open. */
struct cursor {
    uint8_t *packet;
    size_t at;
    size_t code_at;
};

static inline void close_block(struct cursor *cursor)
{
    cursor->packet[cursor->code_at] = (uint8_t)(cursor->at - cursor->code_at);
    cursor->code_at = cursor->at;
}

static inline void put(struct cursor *cursor, uint8_t byte)
{
    if (byte == 0)
        close_block(cursor);
    else
        cursor->packet[cursor->at] = byte;
    cursor->at++;
}

cinder_write_result plain_packet_encode(uint64_t type, const uint8_t *payload, size_t payload_len,
                                        uint8_t *packet, size_t packet_len)
{
    if (packet_len < CINDER_PACKET_ROOM)
        return (cinder_write_result){.error = 20};
    if (!payload_allowed(type, payload_len))
        return (cinder_write_result){.error = 8};
    struct cursor cursor = {.packet = packet, .at = HEADER + 1, .code_at = HEADER};
    uint8_t sum = (uint8_t)(type ^ payload_len);
    packet[0] = 0;
    packet[1] = (uint8_t)(ENCODED_LOWEST + payload_len);
    put(&cursor, (uint8_t)type);
    put(&cursor, (uint8_t)payload_len);
    for (size_t at = 0; at < payload_len; at++) {
        sum ^= payload[at];
        put(&cursor, payload[at]);
    }
    put(&cursor, sum);
    close_block(&cursor);
    return (cinder_write_result){.written = cursor.code_at};
}
