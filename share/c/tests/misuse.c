/* What a program does wrong is answered by a status, and leaves the station as it was. It prints what each call answers. */
#include "dmrgate.h"
#include <stdio.h>
#include <string.h>

static dmr_station station;
static dmr_uplink_slot uplink[2];
static dmr_downlink_slot downlink[2];
static dmr_counts counts;
static dmr_receipt receipt;
static uint8_t room[DMR_RECEIPT_LIMIT], octets[70000];

static uint8_t offer(uint8_t slot, size_t length) {
    return dmr_station_offer(&station, slot, false, false, octets, length);
}

static void try_closed(void) {
    memset(downlink, 0x55, sizeof downlink);
    memset(&counts, 0x55, sizeof counts);
    printf("closed: exchange %d offer %d take %d counts %d\n", dmr_station_exchange(&station, uplink, downlink), offer(1, 5),
           dmr_station_take_received(&station, &receipt, room), dmr_station_counts(&station, &counts));
    printf("nothing is written: %d\n", downlink[0].burst[0] == 0x55 && downlink[1].cach[2] == 0x55 && counts.frames == 0x55555555);
}

static void try_settings(void) {
    const dmr_settings good = {.llid = 1, .colour = 1, .call_hang = 3, .channel_hang = 5, .queue = 9};
    dmr_settings bad[] = {good, good, good, good, good, good};
    bad[0].llid = 0;
    bad[1].llid = 1 << 24;
    bad[2].colour = 16;
    bad[3].call_hang = 6;
    bad[4].queue = 0;
    bad[5].queue = 65;
    printf("settings:");
    for (int i = 0; i < 6; i++) printf(" %d", dmr_station_open(&station, &bad[i]));
    printf(" and then %d", dmr_station_open(&station, &good));
    printf(" and again %d\n", dmr_station_open(&station, &good));
}

static void try_offers(void) {
    printf("offers: slot 0 %d slot 3 %d", offer(0, 5), offer(3, 5));
    printf(" of 70000 %d of 65536 %d of 65535 %d of 0 %d\n", offer(1, 70000), offer(1, 65536), offer(1, 65535), offer(2, 0));
}

static void try_open(void) {
    const dmr_settings bad = {.llid = 0, .colour = 1, .queue = 9};
    uint8_t exchanged = dmr_station_exchange(&station, uplink, downlink);
    printf("open: exchange %d take %d", exchanged, dmr_station_take_received(&station, &receipt, room));
    printf(" bad settings %d", dmr_station_open(&station, &bad));
    printf(" counts %d", dmr_station_counts(&station, &counts));
    printf(" frames %u offered %u refused %u\n", counts.frames, counts.offered, counts.refused);
}

int main(void) {
    try_closed();
    try_settings();
    try_offers();
    try_open();
    dmr_station_close(&station);
    dmr_station_close(&station);
    printf("closed twice: %d\n", station.at == NULL);
    return 0;
}
