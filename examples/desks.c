/* Two desks in C: the daily desk and the reprocessing desk keep their sets in one table, and the same small map is run under each. `./test` builds and runs it.
 *
 * Both are in one program here. A table has no pointer in it: it may as well lie in memory that two programs share. That no two calls are lent it at the same
 * time, but for runs, is then theirs to see to. */
#include <inttypes.h>
#include <stdint.h>
#include <stdio.h>
#include <string.h>

#include "map_m.h"
#include "refusal.h"
#include "spot.h"
#include "uramsheg.h"

enum { DAILY = URAMSHEG_DESK_DAILY, REPROCESSING = URAMSHEG_DESK_REPROCESSING };

/* Where a table's owner bytes begin, and its write counts; and room for a list. */
enum { OWNERS = 4224, COUNTS = 4232, SPOTS = 4 };

typedef struct { uint64_t found; uint8_t bytes[URAMSHEG_SPOT_BYTES * SPOTS]; } list;

/* A new table is zeros: eight free slots. */
static uint8_t table[URAMSHEG_TABLE_BYTES];
static float level[4][PIXELS];

/* Whose a slot is, by its owner byte. */
static const char *owner_of(size_t slot) {
    static const char *const owners[3] = {"free", "the daily desk's", "the reprocessing desk's"};
    if (slot >= URAMSHEG_TABLE_SLOTS) return "none of the table's";
    uint8_t owner = table[OWNERS + slot];
    return owner < 3 ? owners[owner] : "nobody's";
}

/* Says what came of a call. Why a slot is not the caller's, the table tells. */
static void say(const char *what, size_t slot, uint32_t refused) {
    printf("%s slot %zu: ", what, slot);
    if (refused == URAMSHEG_REFUSED_NOT_YOURS)
        printf("refused %" PRIu32 ": it is %s\n", refused, owner_of(slot));
    else if (refused)
        printf("refused %" PRIu32 ": %s\n", refused, why(refused));
    else
        printf("done\n");
}

/* Lists the map's spots under the set that stands in a slot. No desk is named: anybody may run from either desk's slots. */
static list run(size_t slot) {
    list spots = {0, {0}};
    uint32_t refused = uramsheg_desk_run(table, sizeof table, slot, 1, 1, 10, 1.9027314f, 4.1498866f, ROWS, COLS, 0,
                                         level[0], PIXELS, level[1], PIXELS, level[2], PIXELS, level[3], PIXELS, spots.bytes, sizeof spots.bytes, &spots.found);
    say("a run from", slot, refused);
    for (uint64_t i = 0; i < spots.found && i < SPOTS; i++) {
        const uint8_t *spot = spots.bytes + URAMSHEG_SPOT_BYTES * i;
        printf("  a %s at x %g, y %g, moved by %g, %g\n", spot[38] ? "maximum" : "minimum", get(spot, 0), get(spot, 1), get(spot, DELTA_X), get(spot, DELTA_Y));
    }
    return spots;
}

/* Prints whose a slot is, and how often it was claimed or written. */
static void print(size_t slot) {
    const uint8_t *count = table + COUNTS + 4 * slot;
    printf("slot %zu is %s, its write count %u\n", slot, owner_of(slot), get_u16(count, 0) + 65536 * get_u16(count, 2));
}

int main(void) {
    uint8_t daily[URAMSHEG_SET_BYTES], reprocessing[URAMSHEG_SET_BYTES];
    set_t(daily);
    set_t(reprocessing);
    put_move(reprocessing, 0.125f); /* reprocessing tries a fit that moves spots half as far */
    map_m(level);

    say("the daily desk claims", 0, uramsheg_desk_claim(table, sizeof table, DAILY, 0));
    say("reprocessing claims", 0, uramsheg_desk_claim(table, sizeof table, REPROCESSING, 0));
    say("reprocessing claims", 1, uramsheg_desk_claim(table, sizeof table, REPROCESSING, 1));
    run(1);
    say("the daily desk writes", 0, uramsheg_desk_write(table, sizeof table, DAILY, 0, daily, sizeof daily));
    say("reprocessing writes", 1, uramsheg_desk_write(table, sizeof table, REPROCESSING, 1, reprocessing, sizeof reprocessing));
    list before = run(0);
    run(1);

    /* Whatever reprocessing calls, the daily desk's slot stays as it is, and so do the lists that are run from it. */
    say("reprocessing writes", 0, uramsheg_desk_write(table, sizeof table, REPROCESSING, 0, reprocessing, sizeof reprocessing));
    say("reprocessing releases", 0, uramsheg_desk_release(table, sizeof table, REPROCESSING, 0));
    say("reprocessing writes", 1, uramsheg_desk_write(table, sizeof table, REPROCESSING, 1, daily, sizeof daily));
    list after = run(0);
    bool is_same = before.found == after.found && !memcmp(before.bytes, after.bytes, sizeof before.bytes);
    printf("the daily desk's list is %s\n", is_same ? "the same as before, byte for byte" : "ANOTHER THAN BEFORE");

    /* A slot that is given back is free for either desk, and its count goes on. */
    say("the daily desk releases", 0, uramsheg_desk_release(table, sizeof table, DAILY, 0));
    print(0);
    run(0);
    say("reprocessing claims", 0, uramsheg_desk_claim(table, sizeof table, REPROCESSING, 0));
    print(0);
    print(1);
    return !is_same;
}
