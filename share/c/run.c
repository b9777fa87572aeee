/* A run from file to file, frame by frame, over dmrgate.h: it writes the same files as `dmrgate run`, and prints the same line.
 *
 *     run UPLINK OUTGOING DOWNLINK RECEIVED [LLID [COLOUR CALL_HANG CHANNEL_HANG QUEUE]]
 *
 * It stops at a file that isn't one of a run, without telling where.
 */
#include "dmrgate.h"
#include <stdio.h>
#include <stdlib.h>
#include <string.h>

/* A record of the outgoing list: when, where and how a datagram is sent, and its octets. */
struct outgoing {
    bool is_there;
    uint32_t frame, length;
    uint8_t slot, mode;
    uint8_t octets[65535];
};

static dmr_station station;
static FILE *uplink, *outgoing, *downlink, *received;
static struct outgoing next;

static void stop(const char *why) {
    fprintf(stderr, "run: %s\n", why);
    dmr_station_close(&station);
    exit(1);
}

static FILE *open_file(const char *name, const char *mode) {
    FILE *file = fopen(name, mode);
    if (!file) stop(name);
    return file;
}

static void read_whole(void *octets, size_t count, FILE *file) {
    if (fread(octets, 1, count, file) != count) stop("a file ends within a record");
}

static void read_head(FILE *file, const char *magic) {
    uint8_t head[8];
    read_whole(head, 8, file);
    if (memcmp(head, magic, 4)) stop(magic);
}

static uint32_t number_of(const uint8_t *octets, int count) {
    uint32_t number = 0;
    while (count--) number = number << 8 | *octets++;
    return number;
}

static void read_outgoing(void) {
    uint8_t fields[8];
    next.is_there = getc_unlocked(outgoing) != EOF;
    if (!next.is_there) return;
    read_whole(fields, 8, outgoing);
    next.frame = number_of(fields, 4);
    next.slot = fields[4];
    next.mode = fields[5];
    next.length = number_of(fields + 6, 2);
    read_whole(next.octets, next.length, outgoing);
}

/* Offers the datagrams that are due in a frame. */
static void offer_due(uint32_t frame) {
    while (next.is_there && next.frame <= frame) {
        uint8_t status = dmr_station_offer(&station, next.slot, next.mode & 1, (next.mode & 2) != 0, next.octets, next.length);
        if (status != DMR_DONE) stop("a datagram can't be offered");
        read_outgoing();
    }
}

static void write_slot(const dmr_downlink_slot *slot) {
    putc_unlocked(slot->sent, downlink);
    if (!slot->sent) return;
    fwrite(slot->cach, 1, 3, downlink);
    fwrite(slot->burst, 1, 33, downlink);
}

/* Writes all that was received in a frame. */
static void write_received(uint32_t frame) {
    static uint8_t octets[DMR_RECEIPT_LIMIT];
    dmr_receipt it;
    while (dmr_station_take_received(&station, &it, octets) == DMR_DONE) {
        uint8_t fields[12] = {3, frame >> 24, frame >> 16, frame >> 8, frame, it.slot, it.kind, it.source >> 16, it.source >> 8,
                              it.source, it.length >> 8, it.length};
        fwrite(fields, 1, 12, received);
        fwrite(octets, 1, it.length, received);
    }
}

/* Exchanges a frame, with what is due before it and what is received in it. */
static void exchange(uint32_t frame, const dmr_uplink_slot heard[2]) {
    dmr_downlink_slot sent[2];
    offer_due(frame);
    if (dmr_station_exchange(&station, heard, sent) != DMR_DONE) stop("a frame can't be exchanged");
    write_slot(&sent[0]);
    write_slot(&sent[1]);
    write_received(frame);
}

/* Whether there was another slot. */
static bool read_slot(dmr_uplink_slot *slot) {
    int tag = getc_unlocked(uplink);
    if (tag == EOF) return false;
    slot->heard = tag == 1;
    if (slot->heard) read_whole(slot->burst, 33, uplink);
    return true;
}

/* Exchanges silence, then the recording, and then silence until its last frame has gone out. */
static void exchange_all(void) {
    const dmr_uplink_slot silence[2] = {{.heard = false}};
    dmr_uplink_slot heard[2];
    uint32_t frame = 0;
    exchange(frame++, silence);
    while (read_slot(&heard[0])) {
        if (!read_slot(&heard[1])) stop("a recording ends within a frame");
        exchange(frame++, heard);
    }
    for (int more = 0; more < 5; more++) exchange(frame++, silence);
}

static void print_counts(void) {
    dmr_counts it;
    uint32_t unoffered = 0;
    if (dmr_station_counts(&station, &it) != DMR_DONE) stop("there is no station");
    for (; next.is_there; read_outgoing()) unoffered++;
    printf("frames %u repeated %u received %u delivered %u sent %u given-up %u refused %u unoffered %u\n", it.frames, it.repeated,
           it.received, it.delivered, it.sent, it.given_up, it.refused, unoffered);
}

int main(int count, char **words) {
    if (count != 5 && count != 6 && count != 10) stop("run UPLINK OUTGOING DOWNLINK RECEIVED [LLID [COLOUR CALL_HANG CHANNEL_HANG QUEUE]]");
    dmr_settings settings = {.llid = 1, .colour = 1, .call_hang = 3, .channel_hang = 5, .queue = 9};
    if (count > 5) settings.llid = atoi(words[5]);
    if (count > 6) {
        settings.colour = atoi(words[6]);
        settings.call_hang = atoi(words[7]);
        settings.channel_hang = atoi(words[8]);
        settings.queue = atoi(words[9]);
    }
    if (dmr_station_open(&station, &settings) != DMR_DONE) stop("the station can't be opened");
    uplink = open_file(words[1], "rb");
    outgoing = open_file(words[2], "rb");
    read_head(uplink, "DMRU");
    read_head(outgoing, "DMRO");
    downlink = open_file(words[3], "wb");
    received = open_file(words[4], "wb");
    fwrite("DMRD\1\0\0\0", 1, 8, downlink);
    fwrite("DMRI\1\0\0\0", 1, 8, received);
    read_outgoing();
    exchange_all();
    print_counts();
    dmr_station_close(&station);
    return fclose(downlink) || fclose(received) || fclose(uplink) || fclose(outgoing);
}
