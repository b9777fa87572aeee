/* One program over the base station and the codes: the codes read what the station sends. */
#include "dmrgate.h"
#include <stdio.h>
#include <string.h>

/* Words come back from damage within the reach of their codes. Zeros are words of every code, and zeros their parity. */
static int check_codes(void) {
    const uint8_t nine[9] = {0};
    uint8_t parity[3] = {1, 1, 1}, word[12] = {0}, written[25], back[12];
    uint32_t found = 0, fields[4];
    uint8_t octets[9];
    if (dmr_golay20_encode(0) != 0 || dmr_hamming15_encode(0) != 0) return 1;
    if (!dmr_golay20_decode(dmr_golay20_encode(0xA7) ^ 0x80011, &found) || found != dmr_golay20_encode(0xA7)) return 2;
    if (!dmr_residue16_decode(dmr_residue16_encode(0x5A) ^ 0x8001, &found) || found != dmr_residue16_encode(0x5A)) return 3;
    dmr_rs_parity(nine, parity);
    if (parity[0] || parity[1] || parity[2]) return 4;
    word[4] = 0x77;
    if (!dmr_rs_correct(word) || word[4]) return 5;
    for (int at = 0; at < 12; at++) word[at] = 17 * at;
    dmr_bptc_encode(word, written);
    written[3] ^= 0x10;
    if (!dmr_bptc_decode(written, back) || memcmp(word, back, 12)) return 6;
    dmr_embed(word, fields);
    fields[2] ^= 4;
    if (dmr_extract(fields, octets) || memcmp(word, octets, 9)) return 7;
    return 0;
}

/* The header of a call of radio 2 to talk group 1, as the radio sends it. */
static const uint8_t HEADER[33] = {
    0x00, 0x10, 0x01, 0x5E, 0x02, 0x88, 0x12, 0x38, 0x0E, 0x30, 0x44, 0x40, 0x04, 0x6D, 0x5D, 0x7F, 0x77,
    0xFD, 0x75, 0x7E, 0x32, 0x2C, 0x03, 0x28, 0x01, 0x90, 0x07, 0xA0, 0x05, 0x41, 0x0D, 0x00, 0x55};

/* The link control of that header is read, and read again of what it is written as, with an octet and a bit wrong. The masks of a
 * header's parity and a terminator's are 0x96 and 0x99 in each octet. */
static int check_link_control(void) {
    const uint8_t body[7] = {0, 0, 0, 1, 0, 0, 2};
    uint8_t received[25], message[12], written[12];
    dmr_link_control lc, back;
    dmr_read_info(HEADER, received);
    if (dmr_lc_read(received, 0, &lc)) return 20;
    if (lc.protect || lc.reserved || lc.flco || lc.fid || memcmp(lc.body, body, 7)) return 21;
    dmr_lc_write(&lc, 0, written);
    if (!dmr_bptc_decode(received, message) || memcmp(message, written, 12)) return 22;
    written[5] ^= 0x77;
    dmr_bptc_encode(written, received);
    received[3] ^= 0x10;
    if (dmr_lc_read(received, 0, &back) || back.flco || back.fid || memcmp(back.body, body, 7)) return 23;
    dmr_lc_write(&lc, 1, written);
    for (int at = 0; at < 12; at++) {
        if ((message[at] ^ written[at]) != (at < 9 ? 0 : 0x0F)) return 24;
    }
    return 0;
}

/* The station repeats a control block of colour code 1 in slot 1, with idle bursts around it. The codes read each as data of a base
 * station. */
int main(void) {
    const dmr_settings settings = {.llid = 1, .colour = 1, .call_hang = 3, .channel_hang = 5, .queue = 9};
    dmr_station station = {0};
    dmr_downlink_slot downlink[2];
    dmr_uplink_slot uplink[2] = {{.heard = true, .burst = {
        0x00, 0x62, 0x00, 0x82, 0x01, 0x90, 0x01, 0x00, 0x04, 0x20, 0x04, 0xE0, 0x04, 0xCD, 0x5D, 0x7F, 0x77,
        0xFD, 0x75, 0x7A, 0xC8, 0x18, 0x00, 0x28, 0x02, 0x50, 0x02, 0x80, 0x00, 0xC0, 0x12, 0x00, 0x22}}};
    dmr_reading reading;
    int wrong = check_codes(), bursts = 0, blocks = 0;
    if (wrong || (wrong = check_link_control())) return wrong;
    if (dmr_station_open(&station, &settings) != DMR_DONE) return 10;
    for (int frame = 0; frame < 20; frame++) {
        if (dmr_station_exchange(&station, uplink, downlink) != DMR_DONE) return 11;
        uplink[0].heard = false;
        for (int slot = 0; slot < 2; slot++) {
            if (!downlink[slot].sent) continue;
            bursts++;
            if (dmr_read_burst(downlink[slot].burst, &reading) != 1 || reading.side != 0 || reading.colour != 1) return 12;
            blocks += reading.kind == 3 && reading.information == 0;
        }
    }
    dmr_station_close(&station);
    printf("bursts: %d\n", bursts);
    return blocks == 1 ? 0 : 13;
}
