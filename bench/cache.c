/* Lists the spots of a map of noise once, by detection or by the feed: `cache SET detect` or `cache SET feed LONGER`, where each slice of the ring is LONGER
 * floats longer than five columns. bench/cache runs it under valgrind, which counts what it reads. */
#include <inttypes.h>
#include <stdint.h>
#include <stdio.h>
#include <stdlib.h>
#include <string.h>

#include "uramsheg.h"

enum { ROWS = 4096, COLS = 40, PIXELS = ROWS * COLS };

static uint8_t set[528];
static float *level[4];

/* Noise of its own at each level, less of it at the wider ones, so that many pixels are candidates. */
static void fill(void) {
    uint32_t spread = 7;
    for (int k = 0; k < 4; k++) {
        level[k] = aligned_alloc(4096, sizeof(float) * PIXELS);
        if (!level[k]) exit(1);
        for (size_t i = 0; i < PIXELS; i++) {
            spread = spread * 1664525 + 1013904223;
            level[k][i] = ((float)(spread >> 8) / 16777216.0f - 0.5f) * 0.02f / (float)(1 << k);
        }
    }
}

static uint64_t detect(void) {
    static uint8_t out[2 * PIXELS * URAMSHEG_SPOT_BYTES];
    uint64_t found = 0;
    if (uramsheg_detect(set, sizeof set, 0, 0, 12.1f, 1.9027314f, 4.1498866f, ROWS, COLS, 0, level[0], PIXELS, level[1], PIXELS, level[2], PIXELS, level[3],
                        PIXELS, out, sizeof out, &found))
        exit(1);
    return found;
}

static uint64_t feed(size_t longer) {
    static uint8_t out[2 * ROWS * URAMSHEG_SPOT_BYTES], state[URAMSHEG_FEED_BYTES];
    size_t slice = URAMSHEG_RING_COLUMNS * ROWS + longer;
    float *ring = aligned_alloc(4096, sizeof(float) * 4 * slice);
    uint64_t found, sum = 0;
    if (!ring || uramsheg_feed_start(set, sizeof set, 0, 0, 12.1f, 1.9027314f, 4.1498866f, ROWS, COLS, 0, ring, slice, ring + slice, slice, ring + 2 * slice,
                                     slice, ring + 3 * slice, slice, state, sizeof state))
        exit(1);
    for (size_t col = 0; col < COLS; col++, sum += found)
        if (uramsheg_feed_column(state, sizeof state, level[0] + col * ROWS, ROWS, level[1] + col * ROWS, ROWS, level[2] + col * ROWS, ROWS,
                                 level[3] + col * ROWS, ROWS, ring, slice, ring + slice, slice, ring + 2 * slice, slice, ring + 3 * slice, slice, out,
                                 sizeof out, &found))
            exit(1);
    return sum;
}

int main(int count, char **words) {
    FILE *file = count > 2 ? fopen(words[1], "rb") : NULL;
    if (!file || fread(set, 1, sizeof set, file) != sizeof set) return 1;
    fill();
    uint64_t found = strcmp(words[2], "feed") ? detect() : feed(count > 3 ? (size_t)atol(words[3]) : 0);
    printf("%" PRIu64 " spots of %d pixels\n", found, PIXELS);
}
