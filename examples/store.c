/* A day's spots in C: what detection lists and what is added by hand go into one store; false spots are struck, their slots are taken again, and what is left
 * is closed up and sized. `./test` builds and runs it. */
#include <inttypes.h>
#include <stdint.h>
#include <stdio.h>
#include <string.h>

#include "map_m.h"
#include "refusal.h"
#include "spot.h"
#include "uramsheg.h"

enum { SPOT = URAMSHEG_SPOT_BYTES, SLOTS = 4, KEY = 32, POLARITY = 38 };

/* The store is these bytes and nothing else: it may be written to a file, and read from there tomorrow. */
static uint8_t store[SPOT * SLOTS];

static void print_spot(const uint8_t *spot) {
    printf("a %s at x %g, y %g", spot[POLARITY] ? "maximum" : "minimum", get(spot, 0), get(spot, 1));
}

/* Prints what each slot holds. */
static void print_store(void) {
    for (size_t slot = 0; slot < SLOTS; slot++) {
        const uint8_t *spot = store + SPOT * slot;
        printf("  slot %zu: ", slot);
        if (spot[POLARITY] == URAMSHEG_FREE_SLOT)
            printf("free");
        else
            print_spot(spot);
        printf("\n");
    }
}

/* Says why a call was refused. Beside 5 the value tells what is bad: from the number of slots on, it is none of them. */
static void print_refusal(uint32_t refused, uint64_t value) {
    if (refused == URAMSHEG_REFUSED_RECORDS && value < SLOTS)
        printf("refused %" PRIu32 ": slot %" PRIu64 " of the store is bad for this map\n", refused, value);
    else if (refused == URAMSHEG_REFUSED_RECORDS)
        printf("refused %" PRIu32 ": the record is bad for this map\n", refused);
    else
        printf("refused %" PRIu32 ": %s\n", refused, why(refused));
}

static void add(const uint8_t spot[SPOT]) {
    uint64_t slot;
    uint32_t refused = uramsheg_store_add(store, sizeof store, ROWS, COLS, spot, SPOT, &slot);
    printf("add ");
    print_spot(spot);
    printf(": ");
    if (refused)
        print_refusal(refused, slot);
    else
        printf("slot %" PRIu64 "\n", slot);
}

static void strike(size_t slot) {
    uint64_t value;
    uint32_t refused = uramsheg_store_strike(store, sizeof store, ROWS, COLS, slot, &value);
    printf("strike slot %zu: ", slot);
    if (refused)
        print_refusal(refused, value);
    else
        printf("done\n");
}

/* Adds a spot by hand: like another, but at a pixel of its own, from which it is not moved. */
static void add_by_hand(const uint8_t like[SPOT], uint32_t row, uint32_t col, bool is_max) {
    uint8_t spot[SPOT];
    uint32_t key = row * COLS + col;
    memcpy(spot, like, SPOT);
    put(spot, 0, (float)col);
    put(spot, 1, (float)row);
    memcpy(spot + KEY, &key, sizeof key);
    spot[POLARITY] = is_max;
    put(spot, DELTA_X, 0);
    put(spot, DELTA_Y, 0);
    add(spot);
}

/* Adds the one spot that detection lists of map M, and hands it back. */
static uint32_t add_detected(const uint8_t set[URAMSHEG_SET_BYTES], uint8_t spot[SPOT]) {
    float level[4][PIXELS];
    uint64_t found;
    map_m(level);
    uint32_t refused = uramsheg_detect(set, URAMSHEG_SET_BYTES, 1, 1, 10, 1.9027314f, 4.1498866f, ROWS, COLS, 0, level[0], PIXELS, level[1], PIXELS,
                                       level[2], PIXELS, level[3], PIXELS, spot, SPOT, &found);
    if (!refused) add(spot);
    return refused;
}

/* Sizes the first records of the store, which is closed up. */
static uint32_t size(const uint8_t set[URAMSHEG_SET_BYTES], uint64_t live) {
    uint8_t sized[URAMSHEG_SIZED_BYTES * SLOTS];
    uint64_t count;
    uint32_t refused = uramsheg_join(set, URAMSHEG_SET_BYTES, ROWS, COLS, store, SPOT * live, sized, sizeof sized, &count);
    for (uint64_t i = 0; i < count && !refused; i++) {
        const uint8_t *spot = sized + URAMSHEG_SIZED_BYTES * i;
        print_spot(spot);
        if (spot[ACCEPTED])
            printf(": size %g\n", get(spot, CORRECTED));
        else
            printf(": %s\n", why_no_size(spot[CAUSE]));
    }
    return refused;
}

int main(void) {
    uint8_t set[URAMSHEG_SET_BYTES], spot[SPOT] = {0};
    uint64_t live;
    set_t(set);
    uint32_t refused = uramsheg_store_clear(store, sizeof store, &live);
    if (!refused) refused = add_detected(set, spot);
    if (refused) return refuse(refused);
    add_by_hand(spot, 3, 2, true);
    add_by_hand(spot, 6, 7, true);
    add_by_hand(spot, 2, 30, true); /* the map has ten cols */
    add_by_hand(spot, 1, 1, false);
    add_by_hand(spot, 7, 3, true);

    /* A struck spot's slot is the next to be taken. */
    strike(1);
    strike(1);
    strike(9);
    add_by_hand(spot, 7, 3, true);
    strike(2);
    print_store();

    refused = uramsheg_store_close_up(store, sizeof store, ROWS, COLS, &live);
    if (refused) return refuse(refused);
    printf("closed up: %" PRIu64 " live\n", live);
    print_store();
    refused = size(set, live);
    return refused ? refuse(refused) : 0;
}
