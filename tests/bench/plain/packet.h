/* What the plain reader and the plain writer of packets share. */
#ifndef PLAIN_PACKET_H
#define PLAIN_PACKET_H

#include <stdbool.h>
#include <stddef.h>
#include <stdint.h>

enum { PING = 1, ACK = 2, DEVICE_WRITE = 3, DEVICE_DATA = 4, LOG = 5 };

/* 00 and the length byte; the encoded part of an empty payload. */
enum { HEADER = 2, ENCODED_LOWEST = 4, PAYLOAD_LIMIT = 251 };

static inline bool payload_allowed(uint64_t type, size_t length)
{
    switch (type) {
    case PING:
        return length == 0;
    case ACK:
        return length == 10;
    case DEVICE_WRITE:
    case DEVICE_DATA:
        return length >= 4 && length <= 132;
    case LOG:
        return length <= PAYLOAD_LIMIT;
    default:
        return false;
    }
}

#endif
