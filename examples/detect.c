/* Detection and sizing from C: map M of document 01, nine rows by ten cols, which holds one spot. `./test` builds and runs it. */
#include <inttypes.h>
#include <stdint.h>
#include <stdio.h>

#include "map_m.h"
#include "spot.h"
#include "uramsheg.h"

int main(void) {
    uint8_t set[URAMSHEG_SET_BYTES], out[URAMSHEG_SPOT_BYTES * 4], sized[URAMSHEG_SIZED_BYTES * 4];
    float level[4][PIXELS], corrected;
    uint64_t found = 0, value = 0, cause = 0;

    set_t(set);
    map_m(level);
    uint32_t refused = uramsheg_detect(set, sizeof set, 1, 1, 10, 1.9027314f, 4.1498866f, ROWS, COLS, 0,
                                       level[0], PIXELS, level[1], PIXELS, level[2], PIXELS, level[3], PIXELS,
                                       out, sizeof out, &found);
    if (refused != URAMSHEG_DONE || found > 4) {
        printf("refused %" PRIu32 ", found %" PRIu64 "\n", refused, found);
        return 1;
    }
    for (uint64_t i = 0; i < found; i++) {
        const uint8_t *spot = out + URAMSHEG_SPOT_BYTES * i;
        printf("spot at x %g, y %g, moved by %g, %g: a %s of sigma %g, peak %g\n", get(spot, 0), get(spot, 1), get(spot, DELTA_X), get(spot, DELTA_Y),
               spot[38] ? "maximum" : "minimum", get(spot, 2), get(spot, 3));
    }
    printf("found %" PRIu64 "\n", found);

    refused = uramsheg_join(set, sizeof set, ROWS, COLS, out, URAMSHEG_SPOT_BYTES * found, sized, sizeof sized, &value);
    if (refused != URAMSHEG_DONE) {
        printf("the join refused %" PRIu32 ", record %" PRIu64 "\n", refused, value);
        return 1;
    }
    for (uint64_t i = 0; i < value; i++) {
        const uint8_t *spot = sized + URAMSHEG_SIZED_BYTES * i;
        unsigned row = get_u16(spot, HOME_ROW), col = get_u16(spot, HOME_COL);
        if (spot[ACCEPTED])
            printf("spot %" PRIu64 ", home pixel (%u, %u): size %g\n", i, row, col, get(spot, CORRECTED));
        else
            printf("spot %" PRIu64 ", home pixel (%u, %u): %s\n", i, row, col, why_no_size(spot[CAUSE]));
    }

    /* One spot's size by itself: the same samples and sigma, but as a minimum, give none, and the cause says why. */
    refused = uramsheg_correct(set, sizeof set, -1, 4, 0, 0, 2, false, &corrected, &cause);
    if (refused != URAMSHEG_REFUSED_NO_SIZE) {
        printf("the correction answered %" PRIu32 "\n", refused);
        return 1;
    }
    printf("as a minimum: %s\n", why_no_size(cause));
    return 0;
}
