/* The encoded part of a packet, all there and without zeros: decoded and judged in one go. */
#ifndef PLAIN_PART_H
#define PLAIN_PART_H

#include "packet.h"

#include <string.h>

/* The message of the longest payload. */
enum { MESSAGE_LIMIT = PAYLOAD_LIMIT + 3 };

/* The exclusive or of all bytes, eight at a time. */
static uint8_t exclusive_or(const uint8_t *bytes, size_t length)
{
    uint64_t sum = 0;
    for (; length >= sizeof sum; bytes += sizeof sum, length -= sizeof sum) {
        uint64_t part;
        memcpy(&part, bytes, sizeof part);
        sum ^= part;
    }
    for (; length > 0; bytes++, length--)
        sum ^= *bytes;
    sum ^= sum >> 32;
    sum ^= sum >> 16;
    sum ^= sum >> 8;
    return (uint8_t)sum;
}

/*
 * A call of the library's memcpy. gcc sees that lengths are below 256 and would write
 * rep movsq in its place, which takes several times as long.
 */
__attribute__((noipa)) static void copy(uint8_t *to, const uint8_t *from, size_t length)
{
    memcpy(to, from, length);
}

/* Answers the error, or 0. The message of length - 1 bytes stands in `decoded` either way. */
static inline uint64_t decode_part(const uint8_t *encoded, size_t length, uint8_t *decoded)
{
    /* The message is the part without its first byte, each later code a zero. */
    copy(decoded, encoded + 1, length - 1);
    uint8_t codes = encoded[0];
    size_t code_at = encoded[0];
    while (code_at < length) {
        uint8_t code = encoded[code_at];
        decoded[code_at - 1] = 0;
        codes ^= code;
        code_at += code;
    }
    if (code_at != length)
        return 5;
    if (decoded[1] != length - ENCODED_LOWEST)
        return 6;
    /* Zeros don't count, and with its checksum a good message comes to 0. */
    if (exclusive_or(encoded, length) != codes)
        return 7;
    if (!payload_allowed(decoded[0], decoded[1]))
        return 8;
    return 0;
}

#endif
