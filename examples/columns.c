/* A stream of columns for examples/feed.c: `columns SET MAP.csv` makes the four levels of a raw map under a set record and writes them to standard output
 * column by column, as a scanner with a blur behind it would: f32 little-endian, for each column that of level 0, 1, 2 and 3. The map's sides, which `feed`
 * is to be told, go to standard error. */
#include <stdint.h>
#include <stdio.h>

#include "map.h"
#include "refusal.h"
#include "uramsheg.h"

static float raw[MOST], level[4][MOST];

static int fail(const char *what) {
    fprintf(stderr, "%s\n", what);
    return 1;
}

int main(int count, char **words) {
    uint8_t set[URAMSHEG_SET_BYTES + 1];
    size_t rows, cols;
    FILE *set_file = count == 3 ? fopen(words[1], "rb") : NULL, *map_file = count == 3 ? fopen(words[2], "r") : NULL;
    if (!set_file || !map_file) return fail("use: columns SET MAP.csv");
    size_t set_length = fread(set, 1, sizeof set, set_file);
    read_map(map_file, raw, &rows, &cols);
    if (rows == 0) return fail("the map's lines are not all of one length, or are too many");
    uint32_t refused = uramsheg_levels(set, set_length, rows, cols, 0, raw, rows * cols, level[0], MOST, level[1], MOST, level[2], MOST, level[3], MOST);
    if (refused) return refuse(refused);
    fprintf(stderr, "%zu rows, %zu cols\n", rows, cols);
    for (size_t col = 0; col < cols; col++)
        for (int k = 0; k < 4; k++) /* a float lies in memory as in the stream: this machine is little-endian */
            if (fwrite(level[k] + col * rows, sizeof(float), rows, stdout) != rows) return fail("the columns can't be written");
    return fflush(stdout) ? fail("the columns can't be written") : 0;
}
