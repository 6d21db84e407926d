#include <stdio.h>
#include "cinder.h"

enum { MORE_WANTED, A_PACKET, A_REFUSAL };

/* Each socket has a line state of its own; zeros are a fresh line. */
static uint8_t line[CINDER_LINE_ROOM];
static uint8_t packet[CINDER_PACKET_ROOM];

/* Hands a scrap in until all of it is taken: a call ends with the first finding. */
static int take(const uint8_t *bytes, size_t length)
{
    while (length > 0) {
        cinder_line_result r =
            cinder_line_push(line, sizeof line, bytes, length, packet, sizeof packet);
        if (r.found == MORE_WANTED)
            printf("took %llu, more wanted\n", (unsigned long long)r.consumed);
        else if (r.found == A_PACKET)
            printf("took %llu, a packet of %d bytes\n", (unsigned long long)r.consumed,
                   2 + packet[1]);
        else
            printf("took %llu, refused %llu\n", (unsigned long long)r.consumed,
                   (unsigned long long)r.error);
        if (r.consumed == 0) /* 20 or 9: the caller's areas are at fault, and no byte was taken. */
            return 1;
        bytes += r.consumed;
        length -= r.consumed;
    }
    return 0;
}

int main(void)
{
    /* Noise, then the first bytes of an ACK that the line cuts off. */
    const uint8_t first[] = {0x17, 0x2a, 0x2a, 0x00, 0x0e, 0x0e, 0x02};
    /* A PING, and the beginning of another. */
    const uint8_t second[] = {0x00, 0x04, 0x02, 0x01, 0x02, 0x01, 0x00, 0x04, 0x02};
    /* Its rest with another checksum, and a good PING. */
    const uint8_t third[] = {0x01, 0x02, 0x03, 0x00, 0x04, 0x02, 0x01, 0x02, 0x01};
    return take(first, sizeof first) || take(second, sizeof second) || take(third, sizeof third);
}
