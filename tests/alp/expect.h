/* What the checks from C share. */
#include <stdbool.h>
#include <stdint.h>
#include <stdio.h>
#include <string.h>

#include "uramsheg.h"

static const float kept = -7.25f;
static int failures = 0;

static inline void expect(const char *name, bool holds) {
    printf("%s C %s\n", holds ? "ok" : "FAILED", name);
    failures += !holds;
}

/* A set with these sigmas, and nothing else but zeros: good. */
static void set_of(uint8_t set[URAMSHEG_SET_BYTES], const float sigmas[4]) {
    memset(set, 0, URAMSHEG_SET_BYTES);
    memcpy(set, sigmas, 16); /* the record is little-endian, as this machine is */
}

/* A float at a word of a record. */
static void put(uint8_t *record, int word, float x) {
    memcpy(record + 4 * word, &x, 4);
}

/* Document 01's set T. The correction's curve is b t^2 + c t, b and c the first two samples less the last. */
static void set_t(uint8_t set[URAMSHEG_SET_BYTES]) {
    static const float sigmas[4] = {1, 2, 3, 4}, numbers[11] = {1, 0.5f, -4, 4, 0.5f, 16, 0.5f, 1, 0.125f, 0.5f, 1};
    set_of(set, sigmas);
    for (int table = 4; table <= 16; table += 12)
        for (int row = 1; row < 4; row++) put(set, table + 3 * row + row - 1, 1);
    for (int block = 28; block <= 73; block += 45) {
        put(set, block + 3, 1);
        put(set, block + 9 + 5, 1);
        put(set, block + 27 + 4, 0.25f);
    }
    for (int i = 0; i < 11; i++) put(set, 118 + i, numbers[i]);
    for (int i = 0; i < 9; i++) set[516 + i] = (uint8_t)i;
}

static inline bool all_are(const float *floats, size_t from, size_t to, float x) {
    for (size_t i = from; i < to; i++)
        if (memcmp(floats + i, &x, sizeof x)) return false;
    return true;
}
