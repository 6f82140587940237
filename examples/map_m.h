/* Map M of document 01 and its set, for the examples: nine rows by ten cols, which hold one spot. */
#include <stdint.h>
#include <string.h>

#include "uramsheg.h"

enum { ROWS = 9, COLS = 10, PIXELS = ROWS * COLS };

static void put(uint8_t *record, int word, float x) {
    memcpy(record + 4 * word, &x, 4); /* the record is little-endian, as this machine is */
}

/* How far the fit of a set moves a spot: by this part of its centre's value. */
static void put_move(uint8_t set[URAMSHEG_SET_BYTES], float part) {
    for (int block = 28; block <= 73; block += 45) put(set, block + 27 + 4, part);
}

/* Set T: sigmas 1 to 4, simple cubics, and a fit that moves a spot by a quarter of its centre's value. */
static void set_t(uint8_t set[URAMSHEG_SET_BYTES]) {
    static const float numbers[11] = {1, 0.5f, -4, 4, 0.5f, 16, 0.5f, 1, 0.125f, 0.5f, 1};
    memset(set, 0, URAMSHEG_SET_BYTES);
    for (int i = 0; i < 4; i++) put(set, i, (float)(i + 1));
    for (int table = 4; table <= 16; table += 12)
        for (int row = 1; row < 4; row++) put(set, table + 3 * row + row - 1, 1);
    for (int block = 28; block <= 73; block += 45) {
        put(set, block + 3, 1);
        put(set, block + 9 + 5, 1);
    }
    put_move(set, 0.25f);
    for (int i = 0; i < 11; i++) put(set, 118 + i, numbers[i]);
    for (int i = 0; i < 9; i++) set[516 + i] = (uint8_t)i;
}

/* The map's four levels: all 0 but for the pixel (4, 4) of the first two. */
static void map_m(float level[4][PIXELS]) {
    memset(level, 0, 4 * sizeof *level);
    level[0][4 * ROWS + 4] = 0.25f;
    level[1][4 * ROWS + 4] = -0.25f;
}
