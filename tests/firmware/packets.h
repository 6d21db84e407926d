/* Packets for the firmware's checks, put together by document 01's words. */
#ifndef PACKETS_H
#define PACKETS_H

#include <stddef.h>
#include <stdint.h>

enum { PACKET_ROOM = 257, PAYLOAD_LIMIT = 251 };
enum { PING = 1, ACK = 2, DEVICE_WRITE = 3, DEVICE_DATA = 4, LOG = 5 };
/* The first year whose devices send an INT as four bytes; those of earlier years send two. */
enum { LONG_INT_YEAR = 6 };

/* Puts 00, L and the blocks of a message behind it, whatever the message says. Answers the
 * packet's length. */
size_t packet_of(const uint8_t *message, size_t length, uint8_t *packet);

/* Puts type, payload length, payload and checksum. Answers the message's length. */
size_t message_with(uint8_t type, const uint8_t *payload, size_t length, uint8_t *message);

/* Puts the packet of that message. Answers its length. */
size_t packet_with(uint8_t type, const uint8_t *payload, size_t length, uint8_t *packet);

/* Puts payload bytes, some of them 0. */
void put_payload(uint8_t *payload, size_t length);

/* Whether a packet of this type may have a payload of this length. */
int payload_allowed(uint64_t type, size_t length);

#endif
