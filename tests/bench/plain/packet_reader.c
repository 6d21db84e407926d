/*
 * Reads a packet by decoding it to a buffer of its own, which is copied to the message
 * once it is judged: so the blocks are gone through once.
 */
#include "part.h"
#include "plain.h"

static cinder_packet_result refused(uint64_t error)
{
    return (cinder_packet_result){.error = error};
}

cinder_packet_result plain_packet_decode(const uint8_t *bytes, size_t bytes_len,
                                         uint8_t *message, size_t message_len)
{
    if (message_len < CINDER_PACKET_ROOM)
        return refused(20);
    if (bytes_len == 0)
        return refused(1);
    if (bytes[0] != 0)
        return refused(2);
    if (bytes_len == 1)
        return refused(1);
    size_t length = bytes[1];
    if (length < ENCODED_LOWEST)
        return refused(3);
    const uint8_t *encoded = bytes + HEADER;
    size_t present = bytes_len - HEADER < length ? bytes_len - HEADER : length;
    if (memchr(encoded, 0, present) != NULL)
        return refused(4);
    if (present < length)
        return refused(1);
    uint8_t decoded[MESSAGE_LIMIT];
    uint64_t error = decode_part(encoded, length, decoded);
    if (error != 0)
        return refused(error);
    copy(message, decoded, length - 1);
    return (cinder_packet_result){.consumed = HEADER + length};
}
