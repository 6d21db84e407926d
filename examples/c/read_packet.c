#include <stdio.h>
#include "cinder.h"

int main(void)
{
    const uint8_t ping[] = {0x00, 0x04, 0x02, 0x01, 0x02, 0x01};
    uint8_t message[CINDER_PACKET_ROOM];
    cinder_packet_result r = cinder_packet_decode(ping, sizeof ping, message, sizeof message);
    if (r.error != 0) {
        printf("refused %llu\n", (unsigned long long)r.error);
        return 1;
    }
    printf("type %u, %llu bytes\n", message[0], (unsigned long long)r.consumed);
    return 0;
}
