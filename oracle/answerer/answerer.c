/* Answers calls of the detector's archive over a pipe, so that the archive of one processor can be compared on another.
 *
 * A request is a letter, then numbers and buffers as subject/src/piped.rs sends them: a number is 8 bytes, little-endian, a float its pattern as a
 * number, a buffer its length in elements and then its elements, floats of 4 bytes. An answer is numbers, and the buffers that were written.
 * It ends with its standard input. */
#include <stdio.h>
#include <stdlib.h>
#include <string.h>

#include "uramsheg.h"

static void stop(const char *why) {
    fprintf(stderr, "answerer: %s\n", why);
    exit(2);
}

static void take(void *bytes, size_t count) {
    if (fread(bytes, 1, count, stdin) != count) stop("the request is cut short");
}

static void give(const void *bytes, size_t count) {
    if (fwrite(bytes, 1, count, stdout) != count) stop("the answer can't be written");
}

static uint64_t number(void) {
    uint8_t bytes[8];
    uint64_t value = 0;
    take(bytes, sizeof bytes);
    for (int i = 7; i >= 0; i--) value = value << 8 | bytes[i];
    return value;
}

static void answer(uint64_t value) {
    uint8_t bytes[8];
    for (int i = 0; i < 8; i++) bytes[i] = (uint8_t)(value >> 8 * i);
    give(bytes, sizeof bytes);
}

static float of_pattern(uint32_t pattern) {
    float value;
    memcpy(&value, &pattern, sizeof value);
    return value;
}

static uint32_t pattern_of(float value) {
    uint32_t pattern;
    memcpy(&pattern, &value, sizeof pattern);
    return pattern;
}

static float real(void) { return of_pattern((uint32_t)number()); }

typedef struct {
    uint8_t *bytes;
    size_t length;
} Bytes;

typedef struct {
    float *values;
    size_t length;
} Reals;

/* A buffer of exactly its own size. */
static void *room(size_t size) {
    void *made = malloc(size);
    if (made == NULL && size != 0) stop("no memory");
    return made;
}

static Bytes bytes(void) {
    Bytes taken;
    taken.length = number();
    taken.bytes = room(taken.length);
    take(taken.bytes, taken.length);
    return taken;
}

static Reals reals(void) {
    Reals taken;
    taken.length = number();
    uint8_t *wire = room(4 * taken.length);
    take(wire, 4 * taken.length);
    taken.values = room(4 * taken.length);
    for (size_t i = 0; i < taken.length; i++) {
        const uint8_t *at = wire + 4 * i;
        taken.values[i] = of_pattern((uint32_t)at[0] | (uint32_t)at[1] << 8 | (uint32_t)at[2] << 16 | (uint32_t)at[3] << 24);
    }
    free(wire);
    return taken;
}

static void give_reals(Reals given) {
    uint8_t *wire = room(4 * given.length);
    for (size_t i = 0; i < given.length; i++) {
        uint32_t pattern = pattern_of(given.values[i]);
        for (int k = 0; k < 4; k++) wire[4 * i + k] = (uint8_t)(pattern >> 8 * k);
    }
    give(wire, 4 * given.length);
    free(wire);
}

static void detect(void) {
    Bytes set = bytes();
    float thresholds[5];
    for (int i = 0; i < 5; i++) thresholds[i] = real();
    size_t rows = number(), cols = number(), octave = number();
    Reals l[4];
    for (int i = 0; i < 4; i++) l[i] = reals();
    Bytes out = bytes();
    uint64_t value = 0;
    answer(uramsheg_detect(set.bytes, set.length, thresholds[0], thresholds[1], thresholds[2], thresholds[3], thresholds[4], rows, cols, octave,
                           l[0].values, l[0].length, l[1].values, l[1].length, l[2].values, l[2].length, l[3].values, l[3].length, out.bytes,
                           out.length, &value));
    answer(value);
    give(out.bytes, out.length);
    for (int i = 0; i < 4; i++) free(l[i].values);
    free(set.bytes);
    free(out.bytes);
}

/* One of the two joins. */
typedef uint32_t Join(const uint8_t *, size_t, size_t, size_t, const uint8_t *, size_t, uint8_t *, size_t, uint64_t *);

static void join(Join *joined) {
    Bytes set = bytes();
    size_t rows = number(), cols = number();
    Bytes list = bytes(), out = bytes();
    uint64_t value = 0;
    answer(joined(set.bytes, set.length, rows, cols, list.bytes, list.length, out.bytes, out.length, &value));
    answer(value);
    give(out.bytes, out.length);
    free(set.bytes);
    free(list.bytes);
    free(out.bytes);
}

static void correct(void) {
    Bytes set = bytes();
    float samples[4];
    for (int i = 0; i < 4; i++) samples[i] = real();
    float sigma = real(), corrected = 0;
    bool is_max = number() == 1;
    uint64_t cause = UINT64_MAX;
    answer(uramsheg_correct(set.bytes, set.length, samples[0], samples[1], samples[2], samples[3], sigma, is_max, &corrected, &cause));
    answer(pattern_of(corrected));
    answer(cause);
    free(set.bytes);
}

static void octave_count(void) {
    size_t rows = number(), cols = number();
    answer(uramsheg_octave_count(rows, cols));
}

static void downsample(void) {
    size_t rows = number(), cols = number();
    Reals level = reals(), out = reals();
    uint64_t half_rows = 0, half_cols = 0;
    answer(uramsheg_downsample(rows, cols, level.values, level.length, out.values, out.length, &half_rows, &half_cols));
    answer(half_rows);
    answer(half_cols);
    give_reals(out);
    free(level.values);
    free(out.values);
}

static void levels(void) {
    Bytes set = bytes();
    size_t rows = number(), cols = number(), octave = number();
    Reals raw = reals(), l[4];
    for (int i = 0; i < 4; i++) l[i] = reals();
    answer(uramsheg_levels(set.bytes, set.length, rows, cols, octave, raw.values, raw.length, l[0].values, l[0].length, l[1].values, l[1].length,
                           l[2].values, l[2].length, l[3].values, l[3].length));
    for (int i = 0; i < 4; i++) {
        give_reals(l[i]);
        free(l[i].values);
    }
    free(set.bytes);
    free(raw.values);
}

static void feed_start(void) {
    Bytes set = bytes();
    float thresholds[5];
    for (int i = 0; i < 5; i++) thresholds[i] = real();
    size_t rows = number(), cols = number(), octave = number();
    Reals r[4];
    for (int i = 0; i < 4; i++) r[i] = reals();
    Bytes state = bytes();
    answer(uramsheg_feed_start(set.bytes, set.length, thresholds[0], thresholds[1], thresholds[2], thresholds[3], thresholds[4], rows, cols, octave,
                               r[0].values, r[0].length, r[1].values, r[1].length, r[2].values, r[2].length, r[3].values, r[3].length, state.bytes,
                               state.length));
    give(state.bytes, state.length);
    for (int i = 0; i < 4; i++) free(r[i].values);
    free(set.bytes);
    free(state.bytes);
}

static void feed_column(void) {
    Bytes state = bytes();
    Reals c[4], r[4];
    for (int i = 0; i < 4; i++) c[i] = reals();
    for (int i = 0; i < 4; i++) r[i] = reals();
    Bytes out = bytes();
    uint64_t value = UINT64_MAX;
    answer(uramsheg_feed_column(state.bytes, state.length, c[0].values, c[0].length, c[1].values, c[1].length, c[2].values, c[2].length, c[3].values,
                                c[3].length, r[0].values, r[0].length, r[1].values, r[1].length, r[2].values, r[2].length, r[3].values, r[3].length,
                                out.bytes, out.length, &value));
    answer(value);
    give(state.bytes, state.length);
    for (int i = 0; i < 4; i++) {
        give_reals(r[i]);
        free(c[i].values);
        free(r[i].values);
    }
    give(out.bytes, out.length);
    free(state.bytes);
    free(out.bytes);
}

static void scene(void) {
    Bytes set = bytes();
    float thresholds[5];
    for (int i = 0; i < 5; i++) thresholds[i] = real();
    size_t rows = number(), cols = number(), octave = number();
    Reals l[4], t[4];
    for (int i = 0; i < 4; i++) l[i] = reals();
    for (int i = 0; i < 4; i++) t[i] = reals();
    Bytes out = bytes();
    uint64_t value = UINT64_MAX;
    answer(uramsheg_scene(set.bytes, set.length, thresholds[0], thresholds[1], thresholds[2], thresholds[3], thresholds[4], rows, cols, octave,
                          l[0].values, l[0].length, l[1].values, l[1].length, l[2].values, l[2].length, l[3].values, l[3].length, t[0].values,
                          t[0].length, t[1].values, t[1].length, t[2].values, t[2].length, t[3].values, t[3].length, out.bytes, out.length, &value));
    answer(value);
    for (int i = 0; i < 4; i++) {
        give_reals(t[i]);
        free(l[i].values);
        free(t[i].values);
    }
    give(out.bytes, out.length);
    free(set.bytes);
    free(out.bytes);
}

/* The claim, or the release. */
typedef uint32_t Desk(uint8_t *, size_t, size_t, size_t);

static void desk(Desk *called) {
    Bytes table = bytes();
    size_t desk = number(), slot = number();
    answer(called(table.bytes, table.length, desk, slot));
    give(table.bytes, table.length);
    free(table.bytes);
}

static void desk_write(void) {
    Bytes table = bytes();
    size_t desk = number(), slot = number();
    Bytes set = bytes();
    answer(uramsheg_desk_write(table.bytes, table.length, desk, slot, set.bytes, set.length));
    give(table.bytes, table.length);
    free(table.bytes);
    free(set.bytes);
}

static void desk_run(void) {
    Bytes table = bytes();
    size_t slot = number();
    float thresholds[5];
    for (int i = 0; i < 5; i++) thresholds[i] = real();
    size_t rows = number(), cols = number(), octave = number();
    Reals l[4];
    for (int i = 0; i < 4; i++) l[i] = reals();
    Bytes out = bytes();
    uint64_t value = UINT64_MAX;
    answer(uramsheg_desk_run(table.bytes, table.length, slot, thresholds[0], thresholds[1], thresholds[2], thresholds[3], thresholds[4], rows, cols,
                             octave, l[0].values, l[0].length, l[1].values, l[1].length, l[2].values, l[2].length, l[3].values, l[3].length, out.bytes,
                             out.length, &value));
    answer(value);
    give(out.bytes, out.length);
    for (int i = 0; i < 4; i++) free(l[i].values);
    free(table.bytes);
    free(out.bytes);
}

/* What a call on a store answered, and the store. */
static void kept(uint32_t answered, uint64_t value, Bytes store) {
    answer(answered);
    answer(value);
    give(store.bytes, store.length);
    free(store.bytes);
}

static void store_clear(void) {
    Bytes store = bytes();
    uint64_t value = UINT64_MAX;
    uint32_t answered = uramsheg_store_clear(store.bytes, store.length, &value);
    kept(answered, value, store);
}

static void store_add(void) {
    Bytes store = bytes();
    size_t rows = number(), cols = number();
    Bytes spot = bytes();
    uint64_t value = UINT64_MAX;
    uint32_t answered = uramsheg_store_add(store.bytes, store.length, rows, cols, spot.bytes, spot.length, &value);
    kept(answered, value, store);
    free(spot.bytes);
}

static void store_strike(void) {
    Bytes store = bytes();
    size_t rows = number(), cols = number(), slot = number();
    uint64_t value = UINT64_MAX;
    uint32_t answered = uramsheg_store_strike(store.bytes, store.length, rows, cols, slot, &value);
    kept(answered, value, store);
}

static void store_close_up(void) {
    Bytes store = bytes();
    size_t rows = number(), cols = number();
    uint64_t value = UINT64_MAX;
    uint32_t answered = uramsheg_store_close_up(store.bytes, store.length, rows, cols, &value);
    kept(answered, value, store);
}

static void accept_list(void) {
    Bytes set = bytes();
    float thresholds[5];
    for (int i = 0; i < 5; i++) thresholds[i] = real();
    size_t rows = number(), cols = number(), octave = number();
    Reals l[4];
    for (int i = 0; i < 4; i++) l[i] = reals();
    Bytes list = bytes();
    uint32_t finding = UINT32_MAX;
    uint64_t value = UINT64_MAX;
    answer(uramsheg_accept(set.bytes, set.length, thresholds[0], thresholds[1], thresholds[2], thresholds[3], thresholds[4], rows, cols, octave,
                           l[0].values, l[0].length, l[1].values, l[1].length, l[2].values, l[2].length, l[3].values, l[3].length, list.bytes,
                           list.length, &finding, &value));
    answer(finding);
    answer(value);
    for (int i = 0; i < 4; i++) free(l[i].values);
    free(set.bytes);
    free(list.bytes);
}

static void set_check(void) {
    Bytes set = bytes();
    answer(uramsheg_set_check(set.bytes, set.length));
    free(set.bytes);
}

int main(void) {
    int letter;
    while ((letter = getchar()) != EOF) {
        switch (letter) {
        case 'd': detect(); break;
        case 'j': join(uramsheg_join); break;
        case 'k': join(uramsheg_join_old); break;
        case 'c': correct(); break;
        case 'o': octave_count(); break;
        case 'h': downsample(); break;
        case 's': set_check(); break;
        case 'l': levels(); break;
        case 'f': feed_start(); break;
        case 'g': feed_column(); break;
        case 't': scene(); break;
        case 'a': desk(uramsheg_desk_claim); break;
        case 'w': desk_write(); break;
        case 'b': desk(uramsheg_desk_release); break;
        case 'r': desk_run(); break;
        case 'e': store_clear(); break;
        case 'p': store_add(); break;
        case 'x': store_strike(); break;
        case 'u': store_close_up(); break;
        case 'y': accept_list(); break;
        default: stop("no such request");
        }
        fflush(stdout);
    }
    return 0;
}
