/*
 * Takes a line byte by byte. The line state is judged in each call, then goes from phase to
 * phase; what has come of a packet stands in it as in the packet, from its 00 on.
 */
#include "part.h"
#include "plain.h"

enum { FRESH, SKIPPING, LENGTH, INSIDE };

/* Places of a line state. */
enum { PHASE = 0, HELD = 1, PACKET = 2, LENGTH_BYTE = 3, PART = 4 };

enum { MORE_WANTED, A_PACKET, A_REFUSAL };

static bool all_zeros(const uint8_t *bytes, size_t length)
{
    uint64_t bits = 0;
    for (; length >= sizeof bits; bytes += sizeof bits, length -= sizeof bits) {
        uint64_t part;
        memcpy(&part, bytes, sizeof part);
        bits |= part;
    }
    for (; length > 0; bytes++, length--)
        bits |= *bytes;
    return bits == 0;
}

static bool is_line_state(const uint8_t *line, size_t line_len)
{
    if (line_len != CINDER_LINE_ROOM || line[PHASE] > INSIDE)
        return false;
    if (line[PHASE] != INSIDE)
        return all_zeros(line + HELD, CINDER_LINE_ROOM - HELD);
    size_t held = line[HELD];
    return line[PACKET] == 0 && line[LENGTH_BYTE] >= ENCODED_LOWEST &&
           held < line[LENGTH_BYTE] && memchr(line + PART, 0, held) == NULL &&
           all_zeros(line + PART + held, CINDER_LINE_ROOM - PART - held);
}

/* Drops what is held of a packet. */
static void leave_part(uint8_t *line, uint8_t phase)
{
    memset(line + HELD, 0, PART - HELD + (size_t)line[HELD]);
    line[PHASE] = phase;
}

static cinder_line_result refused(uint64_t error)
{
    return (cinder_line_result){.found = A_REFUSAL, .error = error};
}

/* Judges the packet that is all there. */
static cinder_line_result finish(uint8_t *line, uint8_t *packet)
{
    uint8_t decoded[MESSAGE_LIMIT];
    size_t length = line[LENGTH_BYTE];
    uint64_t error = decode_part(line + PART, length, decoded);
    if (error != 0) {
        leave_part(line, SKIPPING);
        return refused(error);
    }
    copy(packet, line + PACKET, HEADER + length);
    leave_part(line, FRESH);
    return (cinder_line_result){.found = A_PACKET};
}

/* What one byte decides; found is MORE_WANTED if it is nothing. */
static cinder_line_result take(uint8_t *line, uint8_t byte, uint8_t *packet)
{
    static const cinder_line_result nothing = {.found = MORE_WANTED};
    switch (line[PHASE]) {
    case FRESH:
        line[PHASE] = byte == 0 ? LENGTH : SKIPPING;
        return byte == 0 ? nothing : refused(2);
    case SKIPPING:
        if (byte == 0)
            line[PHASE] = LENGTH;
        return nothing;
    case LENGTH:
        if (byte < ENCODED_LOWEST) {
            line[PHASE] = byte == 0 ? LENGTH : SKIPPING;
            return refused(3);
        }
        line[LENGTH_BYTE] = byte;
        line[PHASE] = INSIDE;
        return nothing;
    default:
        if (byte == 0) {
            leave_part(line, LENGTH);
            return refused(4);
        }
        line[PART + line[HELD]++] = byte;
        return line[HELD] < line[LENGTH_BYTE] ? nothing : finish(line, packet);
    }
}

cinder_line_result plain_line_push(uint8_t *line, size_t line_len,
                                   const uint8_t *bytes, size_t bytes_len,
                                   uint8_t *packet, size_t packet_len)
{
    if (packet_len < CINDER_PACKET_ROOM)
        return refused(20);
    if (!is_line_state(line, line_len))
        return refused(9);
    for (size_t at = 0; at < bytes_len; at++) {
        cinder_line_result result = take(line, bytes[at], packet);
        if (result.found != MORE_WANTED) {
            result.consumed = at + 1;
            return result;
        }
    }
    return (cinder_line_result){.found = MORE_WANTED, .consumed = bytes_len};
}
