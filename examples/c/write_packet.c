#include <stdio.h>
#include "cinder.h"

enum { DEVICE_DATA = 4 };

/* Parameters 0 and 2 by the map's bits: an INT of 7, in four bytes as devices from year 6 on send
 * it, and a BOOL that is set. */
static const uint8_t payload[] = {0x05, 0x00, 0x00, 0x00, 0x07, 0x00, 0x00, 0x00, 0x01};

/* The call writes straight into this area; it makes no array of its own. */
static uint8_t packet[CINDER_PACKET_ROOM];
static uint8_t message[CINDER_PACKET_ROOM];

static int refused(uint64_t error)
{
    printf("refused %llu\n", (unsigned long long)error);
    return 1;
}

int main(void)
{
    cinder_write_result w =
        cinder_packet_encode(DEVICE_DATA, payload, sizeof payload, packet, sizeof packet);
    if (w.error != 0)
        return refused(w.error);
    for (size_t at = 0; at < w.written; at++)
        printf("%02x%c", packet[at], at + 1 < w.written ? ' ' : '\n');

    /* What was written is read as the same message. */
    cinder_packet_result r = cinder_packet_decode(packet, w.written, message, sizeof message);
    if (r.error != 0)
        return refused(r.error);
    printf("type %u, payload of %u bytes\n", message[0], message[1]);
    return 0;
}
