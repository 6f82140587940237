/* A scene in C: `scene SET` lists the spots of a scene of 40 rows by 4,130 cols, which is longer than a map may be and is cut into two tiles. It holds five round
 * blobs of known sizes, two of them at the seam. `./test` builds and runs it.
 *
 * The levels of a scene are its caller's. Here they are written down: a round blob of size s that is blurred by a sigma t is one of size sqrt(s * s + t * t),
 * and its height falls by the factor s * s / (s * s + t * t). */
#include <math.h>
#include <stdint.h>
#include <stdio.h>
#include <stdlib.h>

#include "refusal.h"
#include "spot.h"
#include "uramsheg.h"

enum { ROWS = 40, COLS = 4130, PIXELS = ROWS * COLS, TILE = ROWS * URAMSHEG_TILE_LENGTH };

typedef struct { double x, y, size, height; } blob;

static const blob blobs[] = {{310.25, 22.7, 2.1, 320}, {2047, 14.8, 3, 260}, {4090.8, 10.3, 2.4, 400}, {4091.6, 29.7, 2.7, 350}, {4116.4, 18.1, 3.4, 240}};

/* The scene, and what it is lent: four slices, each as long as its first tile, and room for the records, little at first. */
static float level[4][PIXELS], tile[4][TILE];
static uint8_t *out;

/* The scene's pixels at a sigma. */
static void make(float *pixels, double sigma) {
    for (size_t i = 0; i < PIXELS; i++) {
        double sum = 0;
        for (const blob *b = blobs; b < blobs + sizeof blobs / sizeof *blobs; b++) {
            double x = (double)(i / ROWS) - b->x, y = (double)(i % ROWS) - b->y, own = b->size * b->size, wide = own + sigma * sigma;
            sum += b->height * own / wide * exp(-(x * x + y * y) / (2 * wide));
        }
        pixels[i] = (float)sum;
    }
}

/* How many tiles a side has, and where its tile k ends. */
static size_t tiles(size_t side) {
    return side < 9 ? 1 : 1 + (side - 9) / URAMSHEG_TILE_STEP;
}

static size_t end(size_t side, size_t k) {
    size_t whole = URAMSHEG_TILE_STEP * k + URAMSHEG_TILE_LENGTH;
    return whole < side ? whole : side;
}

static void print_tiles(void) {
    printf("%d rows by %d cols: %zu by %zu tiles\n", ROWS, COLS, tiles(ROWS), tiles(COLS));
    for (size_t i = 0; i < tiles(ROWS); i++)
        for (size_t j = 0; j < tiles(COLS); j++)
            printf("tile (%zu, %zu): rows %zu to %zu, cols %zu to %zu\n", i, j, URAMSHEG_TILE_STEP * i, end(ROWS, i) - 1, URAMSHEG_TILE_STEP * j, end(COLS, j) - 1);
}

/* Lists the scene's spots. A 6 says that those of a tile don't all fit: the tiles before it, *value of them, are listed whole, and the call is made again with
 * more room. Two records a pixel are always room enough. */
static uint32_t list(const uint8_t *set, size_t set_length, uint64_t *value) {
    for (size_t room = 1;; room *= 2) {
        free(out);
        out = malloc(URAMSHEG_SCENE_BYTES * room);
        if (!out) {
            fprintf(stderr, "there is no memory for more spots\n");
            exit(1);
        }
        uint32_t refused = uramsheg_scene(set, set_length, 50, 0, 12.1f, 1.9027314f, 4.1498866f, ROWS, COLS, 0, level[0], PIXELS, level[1], PIXELS, level[2], PIXELS,
                                          level[3], PIXELS, tile[0], TILE, tile[1], TILE, tile[2], TILE, tile[3], TILE, out, URAMSHEG_SCENE_BYTES * room, value);
        if (refused != URAMSHEG_REFUSED_ROOM || room >= 2 * PIXELS) return refused;
    }
}

/* Prints a spot with its place on its tile and in the scene, where a double holds it exactly. */
static void print(const uint8_t *record) {
    unsigned row = get_u16(record, 0), col = get_u16(record, 2);
    const uint8_t *spot = record + 4;
    double x = get(spot, 0), y = get(spot, 1);
    printf("%s in tile (%u, %u) at x %.2f, y %.2f, in the scene at x %.2f, y %.2f: sigma %.2f, peak %.1f, ", spot[38] ? "maximum" : "minimum", row, col, x, y,
           URAMSHEG_TILE_STEP * col + x, URAMSHEG_TILE_STEP * row + y, get(spot, 2), get(spot, 3));
    if (spot[ACCEPTED])
        printf("size %.2f\n", get(spot, CORRECTED));
    else
        printf("%s\n", why_no_size(spot[CAUSE]));
}

int main(int count, char **words) {
    uint8_t set[URAMSHEG_SET_BYTES + 1] = {0};
    uint64_t value = 0;
    FILE *file = count == 2 ? fopen(words[1], "rb") : NULL;
    if (!file) {
        fprintf(stderr, "use: scene SET\n");
        return 1;
    }
    size_t set_length = fread(set, 1, sizeof set, file);
    for (int k = 0; k < 4; k++) make(level[k], get(set, k)); /* a set begins with its four sigmas */
    print_tiles();
    uint32_t refused = list(set, set_length, &value);
    if (refused) return refuse(refused);
    for (uint64_t i = 0; i < value; i++) print(out + URAMSHEG_SCENE_BYTES * i);
    return 0;
}
