/* From C: how many bytes of stack levels, detection, a list's acceptance, the feed, a scene, a desk's run and write and a store's calls take, each on a painted
 * stack of its own.
 * PROCESSOR and a set's file are given; says what failed. */
#define _XOPEN_SOURCE 700
#include <math.h>
#include <stdint.h>
#include <stdio.h>
#include <stdlib.h>
#include <string.h>
#include <ucontext.h>

#include "uramsheg.h"

enum { SIDE = 300, LONGEST = 4096, CALLS = 10 };

static uint8_t stack[1 << 20], set[URAMSHEG_SET_BYTES], list[URAMSHEG_SCENE_BYTES * SIDE * SIDE], table[URAMSHEG_TABLE_BYTES];
static float level[4][SIDE * SIDE];
static bool is_done;
static uint64_t spots, most;
static uint8_t *due[CALLS]; /* what detection lists in each call of `noise` */
static size_t due_length[CALLS], turn;

/* The longest columns, with the widest kernels. */
static void levels(void) {
    enum { PIXELS = LONGEST * 3 };
    static float raw[PIXELS];
    uint8_t broad[URAMSHEG_SET_BYTES] = {0};
    memcpy(broad, (float[4]){1, 5, 6, 7}, 16); /* the record is little-endian, as this machine is */
    is_done = !uramsheg_levels(broad, sizeof broad, LONGEST, 3, 0, raw, PIXELS, level[0], PIXELS, level[1], PIXELS, level[2], PIXELS, level[3], PIXELS);
}

static bool detected(float low, float high) {
    uint64_t found = 0;
    uint32_t number = uramsheg_detect(set, sizeof set, 0, 0, 12.1f, low, high, SIDE, SIDE, 0, level[0], SIDE * SIDE, level[1], SIDE * SIDE,
                                      level[2], SIDE * SIDE, level[3], SIDE * SIDE, list, sizeof list, &found);
    spots += found;
    return number == 0;
}

/* Detection, its list kept. */
static bool kept(float low, float high) {
    uint64_t before = spots;
    bool listed = detected(low, high);
    due_length[turn] = URAMSHEG_SPOT_BYTES * (size_t)(spots - before);
    due[turn] = malloc(due_length[turn] + 1);
    if (!due[turn]) return false;
    memcpy(due[turn], list, due_length[turn]);
    turn++;
    return listed;
}

/* The list that was kept, which the reader goes through to its end. */
static bool accepted(float low, float high) {
    uint32_t finding = 0;
    uint64_t value = 0;
    uint32_t number = uramsheg_accept(set, sizeof set, 0, 0, 12.1f, low, high, SIDE, SIDE, 0, level[0], SIDE * SIDE, level[1], SIDE * SIDE,
                                      level[2], SIDE * SIDE, level[3], SIDE * SIDE, due[turn], due_length[turn], &finding, &value);
    spots += due_length[turn] / URAMSHEG_SPOT_BYTES;
    turn++;
    return number == 0 && finding == URAMSHEG_LIST_ACCEPTED;
}

/* From the slot that `desk_write` wrote. */
static bool run(float low, float high) {
    uint64_t found = 0;
    uint32_t number = uramsheg_desk_run(table, sizeof table, 3, 0, 0, 12.1f, low, high, SIDE, SIDE, 0, level[0], SIDE * SIDE, level[1], SIDE * SIDE,
                                        level[2], SIDE * SIDE, level[3], SIDE * SIDE, list, sizeof list, &found);
    spots += found;
    return number == 0;
}

static bool fed(float low, float high) {
    static float ring[4][URAMSHEG_RING_COLUMNS * SIDE];
    static uint8_t state[URAMSHEG_FEED_BYTES];
    uint64_t found = 0;
    uint32_t number = uramsheg_feed_start(set, sizeof set, 0, 0, 12.1f, low, high, SIDE, SIDE, 0, ring[0], URAMSHEG_RING_COLUMNS * SIDE, ring[1], URAMSHEG_RING_COLUMNS * SIDE,
                                          ring[2], URAMSHEG_RING_COLUMNS * SIDE, ring[3], URAMSHEG_RING_COLUMNS * SIDE, state, sizeof state);
    for (int c = 0; c < SIDE && number == 0; c++, spots += found)
        number = uramsheg_feed_column(state, sizeof state, level[0] + c * SIDE, SIDE, level[1] + c * SIDE, SIDE, level[2] + c * SIDE, SIDE, level[3] + c * SIDE, SIDE,
                                      ring[0], URAMSHEG_RING_COLUMNS * SIDE, ring[1], URAMSHEG_RING_COLUMNS * SIDE, ring[2], URAMSHEG_RING_COLUMNS * SIDE,
                                      ring[3], URAMSHEG_RING_COLUMNS * SIDE, list, sizeof list, &found);
    return number == 0;
}

/* A scene of one tile; those of more take no more. */
static bool cut(float low, float high) {
    static float tile[4][SIDE * SIDE];
    uint64_t found = 0;
    uint32_t number = uramsheg_scene(set, sizeof set, 0, 0, 12.1f, low, high, SIDE, SIDE, 0, level[0], SIDE * SIDE, level[1], SIDE * SIDE, level[2], SIDE * SIDE,
                                     level[3], SIDE * SIDE, tile[0], SIDE * SIDE, tile[1], SIDE * SIDE, tile[2], SIDE * SIDE, tile[3], SIDE * SIDE,
                                     list, sizeof list, &found);
    spots += found;
    most = found > most ? found : most;
    return number == 0;
}

/* Noise of four heights, some of it lost, and whole noise that halves from level to level and has the most spots; under a usual window, and under one that holds
 * 0, by which the pass rules next to nothing out. */
static void noise(bool (*judged)(float low, float high)) {
    static const float heights[4] = {1, 1e-3f, 1e-18f, 1e-40f};
    uint32_t state = 1;
    is_done = true;
    spots = 0;
    turn = 0;
    for (int run = 0; run < CALLS / 2; run++) {
        for (int i = 0; i < 4 * SIDE * SIDE; i++) {
            float height = run < 4 ? heights[run] : 1.0f / (float)(1 << i % 4);
            state = state * 1664525 + 1013904223;
            level[i % 4][i / 4] = state >> 24 || run == 4 ? ((float)(state >> 8) / 8388608 - 1) * height : NAN;
        }
        is_done = is_done && judged(1.9f, 4.1f) && judged(-1, 9);
    }
    is_done = is_done && spots > 0;
}

static void detection(void) { noise(detected); }

static void acceptance(void) { noise(accepted); }

static void feed(void) { noise(fed); }

/* The slot is claimed for it. */
static void desk_write(void) {
    is_done = !uramsheg_desk_claim(table, sizeof table, URAMSHEG_DESK_DAILY, 3) && !uramsheg_desk_write(table, sizeof table, URAMSHEG_DESK_DAILY, 3, set, sizeof set);
}

static void desk_run(void) { noise(run); }

/* Each call on a long store, every second slot of it free at first. */
static void store_calls(void) {
    enum { SLOTS = 100000, SPOT = URAMSHEG_SPOT_BYTES };
    static const uint8_t spot[SPOT] = {[37] = 1}; /* at the first pixel, of index 1 */
    static uint8_t store[SPOT * SLOTS];
    uint64_t value = 0;
    is_done = !uramsheg_store_clear(store, sizeof store, &value);
    for (size_t slot = 0; slot < SLOTS; slot += 2) memcpy(store + SPOT * slot, spot, SPOT);
    is_done = is_done && !uramsheg_store_add(store, sizeof store, SIDE, SIDE, spot, SPOT, &value) && value == 1;
    is_done = is_done && !uramsheg_store_strike(store, sizeof store, SIDE, SIDE, 0, &value);
    is_done = is_done && !uramsheg_store_close_up(store, sizeof store, SIDE, SIDE, &value) && value == SLOTS / 2;
}

/* A tile of more than 2,730 spots is detected another way, so that one of them must have as many. */
static void scene(void) {
    noise(cut);
    is_done = is_done && most > 2730;
}

/* The bytes that a call takes of the stack, which is painted before. */
static size_t taken_by(void (*call)(void)) {
    static ucontext_t here, there;
    size_t kept = 0;
    memset(stack, 0xa5, sizeof stack);
    getcontext(&there);
    there.uc_stack.ss_sp = stack;
    there.uc_stack.ss_size = sizeof stack;
    there.uc_link = &here;
    makecontext(&there, call, 0);
    swapcontext(&here, &there);
    while (kept < sizeof stack && stack[kept] == 0xa5) kept++;
    return sizeof stack - kept;
}

static bool holds(const char *processor, const char *name, void (*call)(void), size_t most) {
    size_t taken = taken_by(call);
    bool held = is_done && taken < most;
    printf("%s %s: %s: %zu bytes of stack, fewer than %zu\n", held ? "ok" : "FAILED", processor, name, taken, most);
    return held;
}

int main(int count, char **words) {
    FILE *file = count == 3 ? fopen(words[2], "rb") : NULL;
    if (!file || fread(set, 1, sizeof set, file) != sizeof set) return 2;
    fclose(file);
    bool held = holds(words[1], "levels", levels, 51200);
    held = holds(words[1], "detection", detection, 262144) && held;
    noise(kept);
    held = holds(words[1], "a list's acceptance", acceptance, 262144) && is_done && held;
    held = holds(words[1], "the feed", feed, 65536) && held;
    held = holds(words[1], "a scene", scene, 393216) && held;
    held = holds(words[1], "a desk's write", desk_write, 8192) && held;
    held = holds(words[1], "a desk's run", desk_run, 262144) && held;
    return !(holds(words[1], "a store's calls", store_calls, 8192) && held);
}
