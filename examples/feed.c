/* Spots from a scanner in C: `feed SET ROWS COLS` reads columns from standard input and prints each spot as soon as it is known. It never holds more than
 * five columns of each level.
 *
 * Standard input is f32 little-endian and nothing else: for each column 0, 1, .. that of level 0, then of level 1, 2 and 3, each ROWS floats, row 0 first.
 * Levels are blurred; examples/columns.c makes such a stream of a raw map:
 *     columns SET examples/raw.csv | feed SET 60 90
 * `./test` builds and runs both. */
#include <inttypes.h>
#include <stdint.h>
#include <stdio.h>
#include <stdlib.h>

#include "refusal.h"
#include "spot.h"
#include "uramsheg.h"

/* The slices are 1,024 floats longer than they need be: the header says why. */
enum { LONGEST = 4096, RING = URAMSHEG_RING_COLUMNS * LONGEST + 1024 };

/* What the feed is lent: its state, a ring that is long enough for any map, and room for the records of one column, little at first. */
static uint8_t state[URAMSHEG_FEED_BYTES];
static float ring[4][RING];
static uint8_t *out;
static size_t room = 1;

static int fail(const char *what) {
    fprintf(stderr, "%s\n", what);
    return 1;
}

/* Begins a feed of a map of octave 0. */
static uint32_t start(const uint8_t *set, size_t set_length, size_t rows, size_t cols) {
    return uramsheg_feed_start(set, set_length, 50, 0, 12.1f, 1.9027314f, 4.1498866f, rows, cols, 0, ring[0], RING, ring[1], RING, ring[2], RING, ring[3], RING,
                               state, sizeof state);
}

/* Gives the feed the four columns that lie one after the other. A 6 says that the records don't fit: the column was not taken, nothing has changed, and it is
 * given again with more room. Two records a row are always room enough. */
static uint32_t give(const float *columns, size_t rows, uint64_t *found) {
    for (;;) {
        uint32_t refused = uramsheg_feed_column(state, sizeof state, columns, rows, columns + rows, rows, columns + 2 * rows, rows, columns + 3 * rows, rows,
                                                ring[0], RING, ring[1], RING, ring[2], RING, ring[3], RING, out, URAMSHEG_SPOT_BYTES * room, found);
        if (refused != URAMSHEG_REFUSED_ROOM || room >= 2 * rows) return refused;
        free(out);
        room *= 2;
        out = malloc(URAMSHEG_SPOT_BYTES * room);
        if (!out) exit(fail("there is no memory for more spots"));
    }
}

/* Prints the spots of the column that was judged, and sees that they leave at once. */
static void print(uint64_t found, size_t judged) {
    for (uint64_t i = 0; i < found; i++) {
        const uint8_t *spot = out + URAMSHEG_SPOT_BYTES * i;
        printf("%s at x %.2f, y %.2f: sigma %.2f, peak %.1f, in column %zu\n", spot[38] ? "maximum" : "minimum", get(spot, 0), get(spot, 1), get(spot, 2),
               get(spot, 3), judged);
    }
    fflush(stdout);
}

/* Says what a feed that stopped early has listed: column c is judged when c + 2 has come, and the first and the last four columns never are. */
static int stopped(size_t taken, size_t cols) {
    fprintf(stderr, "stopped after %zu of %zu columns: ", taken, cols);
    if (taken < 7 || cols < 9) return fail("none is judged yet");
    fprintf(stderr, "the spots of the columns to %zu are listed\n", taken + 2 < cols ? taken - 3 : cols - 5);
    return 1;
}

int main(int count, char **words) {
    static float columns[4 * LONGEST];
    uint8_t set[URAMSHEG_SET_BYTES + 1];
    size_t rows, cols, got = 0, taken = 0;
    uint64_t found = 0, spots = 0;
    FILE *set_file = count == 4 ? fopen(words[1], "rb") : NULL;
    if (!set_file || sscanf(words[2], "%zu", &rows) != 1 || sscanf(words[3], "%zu", &cols) != 1) return fail("use: feed SET ROWS COLS <COLUMNS");
    uint32_t refused = start(set, fread(set, 1, sizeof set, set_file), rows, cols);
    if (refused) return refuse(refused);
    out = malloc(URAMSHEG_SPOT_BYTES * room);
    if (!out) return fail("there is no memory for a spot");

    size_t due = 4 * rows * sizeof(float);
    int failed = 0;
    while (due && !failed && (got = fread(columns, 1, due, stdin)) == due) {
        refused = give(columns, rows, &found);
        if (refused) {
            failed = refuse(refused);
            continue;
        }
        print(found, taken - 2); /* there are none before column 4 is judged */
        spots += found;
        taken++;
    }
    if (0 < got && got < due) fprintf(stderr, "column %zu is cut short: %zu of %zu bytes came\n", taken, got, due);
    if (taken < cols) failed = stopped(taken, cols);
    printf("%" PRIu64 " spots\n", spots);
    return failed;
}
