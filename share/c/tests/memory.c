/* Each allocation of an open is refused in turn: it is told, and the handle is as it was, with a station in it and without. Linked
 * with --wrap=malloc. It prints how many allocations an open has. */
#include "dmrgate.h"
#include <stdio.h>
#include <stdlib.h>

static long left = -1;

void *__real_malloc(size_t size);

/* Gives memory so many times more, or for ever. */
void *__wrap_malloc(size_t size) {
    if (left == 0) return NULL;
    if (left > 0) left--;
    return __real_malloc(size);
}

static const dmr_settings settings = {.llid = 1, .colour = 1, .call_hang = 3, .channel_hang = 5, .queue = 9};

/* How an open ends that gets memory so often. */
static uint8_t open_with(dmr_station *station, long allocations) {
    left = allocations;
    uint8_t status = dmr_station_open(station, &settings);
    left = -1;
    return status;
}

int main(void) {
    long allocations = 0;
    dmr_station empty = {0}, full = {0};
    if (dmr_station_open(&full, &settings) != DMR_DONE) return 1;
    const void *was = full.at;
    for (; open_with(&empty, allocations) != DMR_DONE; allocations++) {
        if (empty.at || allocations > 10000) return 2;
        if (open_with(&full, allocations) != DMR_NO_MEMORY || full.at != was) return 3;
    }
    dmr_station_close(&empty);
    dmr_station_close(&full);
    printf("allocations: %ld\n", allocations);
    return 0;
}
