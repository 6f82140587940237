/* From a raw map to sizes in C: `levels SET MAP.csv` makes the map's four levels under a set record and lists their spots. A line of the map is a row, its
 * numbers parted by commas; nan is a lost pixel. `./test` builds and runs it on examples/raw.csv. */
#include <math.h>
#include <stdint.h>
#include <stdio.h>
#include <stdlib.h>

#include "map.h"
#include "refusal.h"
#include "spot.h"
#include "uramsheg.h"

enum { SPOTS = 64 };
static float raw[MOST], level[4][MOST];

static int fail(const char *what) {
    fprintf(stderr, "%s\n", what);
    return 1;
}

static size_t lost(const float *floats, size_t count) {
    size_t sum = 0;
    for (size_t i = 0; i < count; i++) sum += !isfinite(floats[i]);
    return sum;
}

int main(int count, char **words) {
    uint8_t set[URAMSHEG_SET_BYTES + 1], out[URAMSHEG_SPOT_BYTES * SPOTS], sized[URAMSHEG_SIZED_BYTES * SPOTS];
    uint64_t found = 0, value = 0;
    size_t rows, cols;
    FILE *set_file = count == 3 ? fopen(words[1], "rb") : NULL, *map_file = count == 3 ? fopen(words[2], "r") : NULL;
    if (!set_file || !map_file) return fail("use: levels SET MAP.csv");
    size_t set_length = fread(set, 1, sizeof set, set_file);
    read_map(map_file, raw, &rows, &cols);
    size_t pixels = rows * cols;
    if (pixels == 0) return fail("the map's lines are not all of one length, or are too many");

    printf("%zu rows by %zu cols, %zu lost\n", rows, cols, lost(raw, pixels));
    uint32_t refused = uramsheg_levels(set, set_length, rows, cols, 0, raw, pixels, level[0], MOST, level[1], MOST, level[2], MOST, level[3], MOST);
    for (int k = 0; k < 4 && !refused; k++) {
        float least = INFINITY, most = -INFINITY;
        for (size_t i = 0; i < pixels; i++) {
            least = level[k][i] < least ? level[k][i] : least;
            most = level[k][i] > most ? level[k][i] : most;
        }
        printf("level %d: %.2f to %.2f, %zu lost\n", k, least, most, lost(level[k], pixels));
    }
    if (!refused)
        refused = uramsheg_detect(set, set_length, 50, 0, 12.1f, 1.9027314f, 4.1498866f, rows, cols, 0, level[0], pixels, level[1], pixels,
                                  level[2], pixels, level[3], pixels, out, sizeof out, &found);
    if (found > SPOTS) return fail("there are more spots than there is room for");
    if (!refused) refused = uramsheg_join(set, set_length, rows, cols, out, URAMSHEG_SPOT_BYTES * found, sized, sizeof sized, &value);
    if (refused) return refuse(refused);
    for (uint64_t i = 0; i < value; i++) {
        const uint8_t *spot = sized + URAMSHEG_SIZED_BYTES * i;
        unsigned row = get_u16(spot, HOME_ROW), col = get_u16(spot, HOME_COL);
        printf("%s at x %.2f, y %.2f, home pixel (%u, %u): sigma %.2f, peak %.1f, ", spot[38] ? "maximum" : "minimum", get(spot, 0), get(spot, 1), row, col,
               get(spot, 2), get(spot, 3));
        if (spot[ACCEPTED])
            printf("size %.2f\n", get(spot, CORRECTED));
        else
            printf("%s\n", why_no_size(spot[CAUSE]));
    }
    return 0;
}
