#include "packets.h"

#include <string.h>

size_t packet_of(const uint8_t *message, size_t length, uint8_t *packet)
{
    size_t code_at = 2;
    packet[0] = 0;
    packet[1] = (uint8_t)(length + 1);
    for (size_t at = 0; at < length; at++) {
        packet[3 + at] = message[at];
        if (message[at] == 0) {
            packet[code_at] = (uint8_t)(3 + at - code_at);
            code_at = 3 + at;
        }
    }
    packet[code_at] = (uint8_t)(3 + length - code_at);
    return length + 3;
}

size_t message_with(uint8_t type, const uint8_t *payload, size_t length, uint8_t *message)
{
    message[0] = type;
    message[1] = (uint8_t)length;
    if (length > 0)
        memcpy(message + 2, payload, length);
    message[2 + length] = 0;
    for (size_t at = 0; at < 2 + length; at++)
        message[2 + length] ^= message[at];
    return length + 3;
}

size_t packet_with(uint8_t type, const uint8_t *payload, size_t length, uint8_t *packet)
{
    uint8_t message[PACKET_ROOM];
    return packet_of(message, message_with(type, payload, length, message), packet);
}

void put_payload(uint8_t *payload, size_t length)
{
    for (size_t at = 0; at < length; at++)
        payload[at] = (uint8_t)(at % 7 * (at + 1));
}

int payload_allowed(uint64_t type, size_t length)
{
    switch (type) {
    case PING:
        return length == 0;
    case ACK:
        return length == 10;
    case DEVICE_WRITE:
    case DEVICE_DATA:
        return length >= 4 && length <= 132;
    case LOG:
        return length <= PAYLOAD_LIMIT;
    default:
        return 0;
    }
}
