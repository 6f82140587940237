/* From C: scenes, each refusal in its order, what a full output holds, what the tile slices keep. Says what failed. */
#include <math.h>
#include <stdint.h>
#include <string.h>

#include "expect.h"
#include "uramsheg.h"

/* A side of three tiles, and one that is as short as may be. */
enum { LONG = 8200, SHORT = 9, PIXELS = LONG * SHORT, TILE = SHORT * URAMSHEG_TILE_LENGTH, LAST = SHORT * (LONG - 2 * URAMSHEG_TILE_STEP) };
enum { SPOTS = 4, ALL = SPOTS * URAMSHEG_SCENE_BYTES, MORE = 5 };

static uint8_t set[URAMSHEG_SET_BYTES], out[ALL + MORE];
static float level[4][PIXELS], tile[4][TILE + MORE];
static uint64_t value;

/* What a call is given. */
typedef struct { size_t rows, cols, octave, set_length, level[4], tile[4], room; float threshold[5]; } given;

static const given wide = {SHORT, LONG, 0, URAMSHEG_SET_BYTES, {PIXELS, PIXELS, PIXELS, PIXELS}, {TILE, TILE, TILE, TILE}, ALL, {1, 1, 10, 1.9027314f, 4.1498866f}};

/* A call on buffers that are filled before it. */
static uint32_t call(given g) {
    for (size_t i = 0; i < 4 * (TILE + MORE); i++) tile[i % 4][i / 4] = kept;
    memset(out, 0xa5, sizeof out);
    value = 77;
    return uramsheg_scene(set, g.set_length, g.threshold[0], g.threshold[1], g.threshold[2], g.threshold[3], g.threshold[4], g.rows, g.cols, g.octave,
                          level[0], g.level[0], level[1], g.level[1], level[2], g.level[2], level[3], g.level[3],
                          tile[0], g.tile[0], tile[1], g.tile[1], tile[2], g.tile[2], tile[3], g.tile[3], out, g.room, &value);
}

/* Whether the bytes of `out` from a place on are as before the call. */
static bool is_kept(size_t from) {
    bool holds = true;
    for (size_t i = from; i < sizeof out; i++) holds = holds && out[i] == 0xa5;
    return holds;
}

/* Whether the call wrote nothing, and *value is 0. */
static bool is_untouched(void) {
    bool holds = value == 0 && is_kept(0);
    for (int k = 0; k < 4; k++) holds = holds && all_are(tile[k], 0, TILE + MORE, kept);
    return holds;
}

/* Levels of zeros with map M's blob at four places along the scene's long side: three in its first tile, none in its second, one in its third. */
static void make_blobs(size_t rows) {
    static const size_t places[SPOTS] = {40, 50, 4000, 8190};
    memset(level, 0, sizeof level);
    for (int i = 0; i < SPOTS; i++) {
        size_t at = rows == SHORT ? places[i] * rows + 4 : 4 * rows + places[i];
        level[0][at] = 0.25f;
        level[1][at] = -0.25f;
    }
}

/* A call with some things wrong with it, of the levels, thresholds and slices those of the number k: the first in the order 10, 2, 3, 8, 4, 6 is answered, and
 * nothing is written. */
static bool refused_first(unsigned wrong, int k) {
    static const uint32_t numbers[7] = {10, 2, 3, 8, 4, 6, 0};
    given g = wide;
    int first = 0;
    while (first < 6 && !(wrong >> first & 1)) first++;
    if (wrong & 1) *(k % 2 ? &g.rows : &g.cols) = k / 2 ? URAMSHEG_SCENE_LONGEST + 1 : SIZE_MAX;
    if (wrong & 2) g.level[k]--;
    if (wrong & 4) g.octave = k ? 6 : SIZE_MAX;
    if (wrong & 8) g.threshold[k] = NAN;
    if (wrong & 16) g.set_length--;
    if (wrong & 32) g.tile[k]--;
    return call(g) == numbers[first] && (numbers[first] ? is_untouched() : value == SPOTS);
}

static void refusals(void) {
    bool holds = true;
    make_blobs(SHORT);
    for (unsigned wrong = 0; wrong < 64; wrong++)
        for (int k = 0; k < 4; k++) holds = holds && refused_first(wrong, k);
    expect("scene: the first refusal is answered, and it writes nothing", holds);
    expect("scene: the numbers are the header's", URAMSHEG_REFUSED_SCENE == 10 && URAMSHEG_SCENE_BYTES == URAMSHEG_SIZED_BYTES + 4);
}

/* The float at a place of the copy of the tile (i, j) of level k. */
static float copied(int k, size_t rows, size_t i, size_t j, size_t place) {
    size_t left = rows - URAMSHEG_TILE_STEP * i, own = left < URAMSHEG_TILE_LENGTH ? left : URAMSHEG_TILE_LENGTH;
    return level[k][(URAMSHEG_TILE_STEP * j + place / own) * rows + URAMSHEG_TILE_STEP * i + place % own];
}

/* Whether the slices hold at these places the copy of a tile: its number along the scene's long side. */
static bool holds_copy(size_t rows, size_t number, size_t from, size_t to) {
    bool holds = true;
    for (int k = 0; k < 4; k++)
        for (size_t place = from; place < to; place++)
            holds = holds && tile[k][place] == copied(k, rows, rows == SHORT ? 0 : number, rows == SHORT ? number : 0, place);
    return holds;
}

/* Outputs that are too short: whole tiles alone are written, one without records among them, and the slices hold the tile that did not fit. */
static bool fills_whole_tiles(given g) {
    static const size_t rooms[5] = {0, URAMSHEG_SCENE_BYTES, 3 * URAMSHEG_SCENE_BYTES - 1, 3 * URAMSHEG_SCENE_BYTES, ALL - 1};
    uint8_t all[ALL];
    make_blobs(g.rows);
    bool holds = call(g) == 0 && value == SPOTS && is_kept(ALL);
    memcpy(all, out, sizeof all);
    for (int i = 0; i < 5; i++) {
        size_t tiles = i < 3 ? 0 : 2, written = i < 3 ? 0 : 3 * URAMSHEG_SCENE_BYTES;
        g.room = rooms[i];
        holds = holds && call(g) == 6 && value == tiles && !memcmp(out, all, written) && is_kept(written);
        holds = holds && holds_copy(g.rows, tiles, 0, tiles ? LAST : TILE);
    }
    return holds;
}

/* The last spot, at 8190 along the long side: its tile's numbers, and the key on it, where it is 14 along that side. */
static bool numbers_tiles(given g) {
    const uint8_t *last = out + 3 * URAMSHEG_SCENE_BYTES, numbers[4] = {g.rows == LONG ? 2 : 0, 0, g.cols == LONG ? 2 : 0, 0};
    uint32_t key = g.rows == LONG ? 14 * SHORT + 4 : 4 * LAST / SHORT + 14;
    make_blobs(g.rows);
    return call(g) == 0 && !memcmp(last, numbers, 4) && !memcmp(last + 36, &key, 4);
}

/* Slices that are longer than need be, after a scene of which nothing is listed. */
static bool keeps_slices(given g) {
    for (size_t i = 0; i < 4 * PIXELS; i++) level[i % 4][i / 4] = (float)(i * 7919 % 1000);
    for (int k = 0; k < 4; k++) g.tile[k] = TILE + MORE;
    g.threshold[0] = INFINITY;
    bool holds = call(g) == 0 && value == 0 && is_kept(0) && holds_copy(g.rows, 2, 0, LAST) && holds_copy(g.rows, 1, LAST, TILE);
    for (int k = 0; k < 4; k++) holds = holds && all_are(tile[k], TILE, TILE + MORE, kept);
    return holds;
}

/* A side of 0 needs no room. */
static bool takes_empty(size_t rows, size_t cols) {
    given g = {rows, cols, 5, URAMSHEG_SET_BYTES, {0}, {0}, 0, {1, 1, 10, 2, 4}};
    return call(g) == 0 && is_untouched();
}

int main(void) {
    given tall = wide;
    tall.rows = LONG;
    tall.cols = SHORT;
    set_t(set);
    refusals();
    expect("scene: a full output holds whole tiles, and their number is told", fills_whole_tiles(wide) && fills_whole_tiles(tall));
    expect("scene: a record has its tile's numbers, and a key on its tile", numbers_tiles(wide) && numbers_tiles(tall));
    expect("scene: a slice keeps what the copies leave", keeps_slices(wide) && keeps_slices(tall));
    expect("scene: an empty scene is taken, and nothing is written", takes_empty(0, URAMSHEG_SCENE_LONGEST) && takes_empty(URAMSHEG_SCENE_LONGEST, 0));
    return failures != 0;
}
