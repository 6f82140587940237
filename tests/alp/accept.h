/* What the checks of accepting a list share: a map with dozens of spots, and the list that is due for it. */
#include <stdbool.h>
#include <stdint.h>
#include <string.h>

#include "expect.h"
#include "uramsheg.h"

enum { SPOT = URAMSHEG_SPOT_BYTES, SET = URAMSHEG_SET_BYTES, KEY = 32, POLARITY = 38, ROWS = 44, COLS = 53, PIXELS = ROWS * COLS, MOST = 200 };

static const float thresholds[5] = {0, 0, 12.1f, -1, 9};

static uint8_t set[SET], due[SPOT * MOST];
static float level[4][PIXELS];
static size_t due_count;

/* Set T, but its cubics are no parabolas: such a curve may have a minimum and a maximum at one pixel. */
static void set_of_cubics(uint8_t record[SET]) {
    static const float scale[3] = {1, -1, 0}, geometry[3] = {-1, 1, -1};
    set_t(record);
    for (int i = 0; i < 3; i++) {
        put(record, 4 + i, scale[i]);
        put(record, 16 + i, geometry[i]);
    }
}

/* Pixels five apart that are not 0: each fourth lists a minimum and a maximum, of the others some list one of them, and some both or none. */
static void make_map(void) {
    static const float pair[4] = {-0.5f, 0.5f, -1, -0.375f};
    uint32_t state = 1;
    set_of_cubics(set);
    memset(level, 0, sizeof level);
    for (int place = 0; place < 80; place++)
        for (int k = 0; k < 4; k++) {
            state = state * 1664525 + 1013904223;
            level[k][(4 + place % 10 * 5) * ROWS + 4 + place / 10 * 5] = place % 4 ? (float)(state >> 28) / 8 - 1 : pair[k];
        }
}

/* Lists what is due for the map under an octave, in `due`. */
static bool is_listed(size_t octave) {
    uint64_t found = 0;
    uint32_t refused = uramsheg_detect(set, SET, thresholds[0], thresholds[1], thresholds[2], thresholds[3], thresholds[4], ROWS, COLS, octave, level[0], PIXELS,
                                       level[1], PIXELS, level[2], PIXELS, level[3], PIXELS, due, sizeof due, &found);
    due_count = found;
    return !refused && found <= MOST;
}
