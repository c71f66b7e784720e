/* Subscribes one slot, receives a telegram that it wrote itself, and prints what the slot shows. */
#include <stdio.h>
#include "trdp.h"

int main(void) {
    trdp_subscription slots[1] = {trdp_no_subscription()};
    uint8_t store[TRDP_PART] = {0};
    trdp_statistics statistics = trdp_no_statistics();
    trdp_filter filter = {.com_id = 1000};
    trdp_subscribe(slots, 1, store, sizeof store, filter, 0, TRDP_KEEP, 0);

    uint8_t datagram[TRDP_PD_HEADER + 8];
    trdp_pd_header header = {.common = {.protocol_version = 0x0100, .msg_type = TRDP_PD, .com_id = 1000}};
    trdp_outcome wrote = trdp_write_pd(header, (const uint8_t *)"doors ok", 8, datagram, sizeof datagram);

    trdp_arrival arrival = {.sender = 0x0A000001, .destination = 0xEF000001, .time = 1};
    trdp_outcome taken = trdp_receive_pd(slots, 1, store, sizeof store, &statistics, arrival, datagram, wrote.value);

    trdp_shown shown = trdp_read(slots, 1, store, sizeof store, 0);
    printf("refusal %d, slots %zu: %.*s\n", taken.refusal, taken.value, (int)shown.length, (const char *)&store[shown.start]);
    return 0;
}
