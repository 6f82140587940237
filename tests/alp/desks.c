/* From C: the table of two desks. Each call's refusals, alone and in their order; what a call that is done changes of the whole table, and that all others change
 * nothing; runs from a slot beside detection with its record. Says what failed. */
#include <math.h>
#include <stdint.h>
#include <string.h>

#include "expect.h"
#include "uramsheg.h"

enum { BYTES = URAMSHEG_TABLE_BYTES, SLOTS = URAMSHEG_TABLE_SLOTS, SET = URAMSHEG_SET_BYTES, OWNERS = 4224, COUNTS = 4232, LONGEST = 4300, FILL = 0xa5 };
enum { ROWS = 9, COLS = 12, PIXELS = ROWS * COLS, MOST = 900, SPOTS = 2, ROOM = 20 * URAMSHEG_SPOT_BYTES, LONGEST_SET = 600, USUAL = 7 };

typedef enum { CLAIM, WRITE, RELEASE, RUN, KINDS } kind;

/* What a call is given beside the bytes. */
typedef struct { size_t length, desk, slot, set_length, rows, cols, octave, level[4], room; float threshold[5]; } given;

/* The table lies at an odd address; `due` is what it is to be after a call, with what lies behind it. The sets of the slots are unlike each other, and unlike the
 * one that is written. */
static uint8_t lent[LONGEST + 1], *const table = lent + 1, due[LONGEST], sets[SLOTS][SET], set[LONGEST_SET], out[ROOM];
static float level[4][MOST];
static uint64_t value;

/* Set T, but for how far its fit moves a spot. */
static void set_that_moves(uint8_t record[SET], float part) {
    set_t(record);
    for (int block = 28; block <= 73; block += 45) put(record, block + 27 + 4, part);
}

static uint32_t count_of(const uint8_t *bytes, size_t slot) {
    const uint8_t *count = bytes + COUNTS + 4 * slot;
    return count[0] | (uint32_t)count[1] << 8 | (uint32_t)count[2] << 16 | (uint32_t)count[3] << 24;
}

static void put_count(uint8_t *bytes, size_t slot, uint32_t count) {
    for (size_t i = 0; i < 4; i++) bytes[COUNTS + 4 * slot + i] = (uint8_t)(count >> 8 * i);
}

/* A table whose slots all have this owner and this count. */
static void fill(uint8_t owner, uint32_t count) {
    memset(table, FILL, LONGEST);
    memcpy(table, sets, sizeof sets);
    memset(table + OWNERS, owner, SLOTS);
    for (size_t slot = 0; slot < SLOTS; slot++) put_count(table, slot, count);
}

/* What a call is given that is done on the slot, but for the table. */
static given at(size_t desk, size_t slot) {
    return (given){BYTES, desk, slot, SET, ROWS, COLS, 0, {PIXELS, PIXELS, PIXELS, PIXELS}, ROOM, {1, 1, 10, 1.9027314f, 4.1498866f}};
}

/* Such a call, and a table for it whose other slots have this owner. What is claimed may hold any bytes. */
static given among(uint8_t others, kind k, size_t desk, size_t slot) {
    fill(others, USUAL);
    if (k == CLAIM) memset(table + SET * slot, FILL, SET);
    table[OWNERS + slot] = k == CLAIM ? 0 : (uint8_t)desk;
    return at(desk, slot);
}

static uint32_t call(kind k, given g) {
    memset(out, FILL, sizeof out);
    value = 77;
    switch (k) {
    case CLAIM: return uramsheg_desk_claim(table, g.length, g.desk, g.slot);
    case WRITE: return uramsheg_desk_write(table, g.length, g.desk, g.slot, set, g.set_length);
    case RELEASE: return uramsheg_desk_release(table, g.length, g.desk, g.slot);
    default:
        return uramsheg_desk_run(table, g.length, g.slot, g.threshold[0], g.threshold[1], g.threshold[2], g.threshold[3], g.threshold[4], g.rows, g.cols, g.octave,
                                 level[0], g.level[0], level[1], g.level[1], level[2], g.level[2], level[3], g.level[3], out, g.room, &value);
    }
}

/* Whether detection with the record in a slot answers this number, and gives the value and the whole output that the run before it gave. */
static bool is_detected(given g, uint32_t number) {
    uint8_t record[SET], listed[ROOM];
    uint64_t found = 77;
    memcpy(record, due + SET * g.slot, SET);
    memset(listed, FILL, sizeof listed);
    return number == uramsheg_detect(record, SET, g.threshold[0], g.threshold[1], g.threshold[2], g.threshold[3], g.threshold[4], g.rows, g.cols, g.octave,
                                     level[0], g.level[0], level[1], g.level[1], level[2], g.level[2], level[3], g.level[3], listed, g.room, &found)
        && value == found && !memcmp(out, listed, sizeof out);
}

/* Whether a call answers this number and leaves what is due. */
static bool answers(kind k, given g, uint32_t number) {
    bool holds = call(k, g) == number && !memcmp(table, due, LONGEST);
    if (k != RUN || number == 11) {
        for (size_t i = 0; i < sizeof out; i++) holds = holds && out[i] == FILL;
        return holds && (k != RUN || value == 0);
    }
    return holds && is_detected(g, number) && value == (number ? 0 : SPOTS);
}

/* Whether a call is refused with this number, and changes nothing. */
static bool refuses(kind k, given g, uint32_t number) {
    memcpy(due, table, LONGEST);
    return answers(k, g, number);
}

/* Whether a call is done, and changes exactly the bytes that it is to. */
static bool does(kind k, given g) {
    memcpy(due, table, LONGEST);
    if (k == CLAIM) memset(due + SET * g.slot, 0, SET);
    if (k == CLAIM) due[OWNERS + g.slot] = (uint8_t)g.desk;
    if (k == WRITE) memcpy(due + SET * g.slot, set, SET);
    if (k == CLAIM || k == WRITE) put_count(due, g.slot, count_of(due, g.slot) + 1);
    if (k == RELEASE) due[OWNERS + g.slot] = 0;
    return answers(k, g, 0);
}

/* Whether a call with this owner byte in its slot is done. */
static bool is_owned(kind k, size_t desk, unsigned owner) {
    return k == CLAIM ? owner == 0 : k == RUN ? owner == 1 || owner == 2 : owner == desk;
}

/* Makes a record bad, in one of several ways. */
static void spoil(uint8_t record[SET], unsigned way) {
    if (way % 4 == 0) memset(record, 0, SET); /* as a claim does */
    if (way % 4 == 1) put(record, 4 + (int)way, NAN);
    if (way % 4 == 2) record[516 + way] = 9;
    if (way % 4 == 3) record[525 + way / 4] = 1;
}

/* What may be wrong with a call, and of those that are, what is answered. A kind that does not look at one of them is done all the same. */
enum { LENGTH = 1, DESK = 2, SLOT = 4, OWNER = 8, COUNT = 16, SIDE = 32, LEVEL = 64, OCTAVE = 128, THRESHOLD = 256, RECORD = 512, ALL = 1024 };

static uint32_t first_of(kind k, unsigned wrong) {
    if (wrong & (LENGTH | SLOT | OWNER) || (k != RUN && wrong & DESK)) return 11;
    if ((k == CLAIM || k == WRITE) && wrong & COUNT) return 12;
    if (k == RUN && wrong & SIDE) return 1;
    if (k == RUN && wrong & LEVEL) return 2;
    if (k == RUN && wrong & OCTAVE) return 3;
    if (k == RUN && wrong & THRESHOLD) return 8;
    return (k == RUN || k == WRITE) && wrong & RECORD ? 4 : 0;
}

static const size_t no_desks[8] = {0, 3, 255, 256, 257, 258, ((size_t)1 << 32) + 1, SIZE_MAX};

/* What is added to a slot: all are above 7; (1 << 60) * 528 is a multiple of 1 << 64. */
static const size_t too_far[8] = {8, 16, 256, 65536, (size_t)1 << 32, (size_t)1 << 60, (size_t)1 << 63, SIZE_MAX - 7};

/* A call with some things wrong with it, each in one of several ways. The other slots are as the call's own is not. */
static bool refused_first(kind k, unsigned wrong, unsigned way) {
    static const size_t lengths[4] = {0, BYTES - 1, BYTES + 1, LONGEST};
    size_t desk = 1 + way % 2, slot = way % SLOTS;
    const uint8_t own = k == CLAIM ? 0 : (uint8_t)desk, claimed[4] = {1, 2, 3, 255}, others[4] = {0, k == RUN ? 4 : (uint8_t)(3 - desk), 3, 255};
    uint8_t foreign = (k == CLAIM ? claimed : others)[way % 4];
    given g = at(desk, slot);
    fill(wrong & OWNER ? own : foreign, wrong & COUNT ? USUAL : UINT32_MAX);
    table[OWNERS + slot] = wrong & OWNER ? foreign : own;
    put_count(table, slot, wrong & COUNT ? UINT32_MAX : USUAL);
    set_that_moves(set, 0.125f);
    if (wrong & LENGTH) g.length = lengths[way % 4];
    if (wrong & DESK) g.desk = no_desks[way];
    if (wrong & SLOT) g.slot += too_far[way];
    if (wrong & SIDE) *(way % 4 < 2 ? &g.rows : &g.cols) = way % 2 ? 4097 : SIZE_MAX;
    if (wrong & LEVEL) g.level[way % 4]--;
    if (wrong & OCTAVE) g.octave = way % 2 ? 6 : SIZE_MAX;
    if (wrong & THRESHOLD) g.threshold[way % 5] = NAN;
    if (wrong & RECORD) spoil(k == WRITE ? set : table + SET * slot, way);
    return first_of(k, wrong) ? refuses(k, g, first_of(k, wrong)) : does(k, g);
}

static bool orders(kind k) {
    bool holds = true;
    for (unsigned wrong = 0; wrong < ALL; wrong++)
        for (unsigned way = 0; way < 8; way++) holds = holds && refused_first(k, wrong, way);
    set_that_moves(set, 0.125f);
    return holds;
}

/* A table of any other length is none. */
static bool takes_its_length(kind k) {
    bool holds = true;
    for (size_t length = 0; length <= LONGEST; length++) {
        given g = among(0, k, 1 + length % 2, length % SLOTS);
        g.length = length;
        holds = holds && (length == BYTES ? does(k, g) : refuses(k, g, 11));
    }
    return holds;
}

/* A desk of any other number is none, whatever the owner bytes, and so is a slot. */
static bool knows_desks_and_slots(kind k) {
    bool holds = true;
    for (unsigned owner = 0; owner < 256; owner++)
        for (size_t i = 0; i < 8; i++) {
            fill((uint8_t)owner, owner * 0x01010101u); /* what follows the owner bytes is like them */
            holds = holds && (k == RUN || refuses(k, at(no_desks[i], owner % SLOTS), 11));
            for (size_t desk = 1; desk <= 2; desk++) holds = holds && refuses(k, at(desk, owner % SLOTS + too_far[i]), 11);
        }
    return holds;
}

/* Owner bytes of every value, at every slot. */
static bool goes_by_owner(kind k) {
    bool holds = true;
    for (unsigned i = 0; i < 256 * SLOTS * 2 * 4; i++) {
        unsigned owner = i % 256, desk = 1 + i / (256 * SLOTS) % 2;
        given g = among((uint8_t)(i / (256 * SLOTS * 2)), k, desk, i / 256 % SLOTS);
        table[OWNERS + g.slot] = (uint8_t)owner;
        holds = holds && (is_owned(k, desk, owner) ? does(k, g) : refuses(k, g, 11));
    }
    return holds;
}

/* Counts at the borders of their bytes, at every slot, among largest ones and among zeros: only a claim and a write look at one, and at their own slot's alone. */
static bool goes_by_count(kind k) {
    static const uint32_t counts[] = {0, 254, 255, 256, 65534, 65535, 65536, 16777214, 16777215, 16777216, 0x7fffffff, 0x80000000, 4294967294, 4294967295};
    bool holds = true;
    for (size_t i = 0; i < sizeof counts / sizeof *counts * SLOTS * 2; i++) {
        uint32_t count = counts[i / (2 * SLOTS)];
        given g = among(3, k, 1 + i % 2, i / 2 % SLOTS);
        for (size_t slot = 0; slot < SLOTS; slot++) put_count(table, slot, slot == g.slot ? count : i % 2 ? UINT32_MAX : 0);
        holds = holds && ((k == CLAIM || k == WRITE) && count == 4294967295 ? refuses(k, g, 12) : does(k, g));
    }
    return holds;
}

/* A count's bytes, the lowest first: at its borders one more goes over into the next. */
static bool carries(kind k) {
    static const uint8_t bytes[4][2][4] = {
        {{255, 0, 0, 0}, {0, 1, 0, 0}}, {{255, 255, 7, 0}, {0, 0, 8, 0}}, {{255, 255, 255, 41}, {0, 0, 0, 42}}, {{254, 255, 255, 255}, {255, 255, 255, 255}}};
    bool holds = true;
    for (size_t i = 0; i < 4 * SLOTS; i++) {
        given g = among(3, k, 1, i % SLOTS);
        uint8_t *count = table + COUNTS + 4 * g.slot;
        memcpy(count, bytes[i / SLOTS][0], 4);
        holds = holds && call(k, g) == 0 && !memcmp(count, bytes[i / SLOTS][1], 4);
    }
    return holds;
}

/* A set record of another length is not written, nor one with a word that is none of a good record's. */
static bool writes_good_records(void) {
    bool holds = true;
    for (size_t length = 0; length <= LONGEST_SET; length++) {
        given g = among(3, WRITE, 1 + length % 2, length % SLOTS);
        g.set_length = length;
        holds = holds && (length == SET ? does(WRITE, g) : refuses(WRITE, g, 4));
    }
    for (int word = 0; word < SET / 4; word++) {
        given g = among(3, WRITE, 1 + word % 2, (size_t)word % SLOTS);
        put(set, word, NAN);
        holds = holds && refuses(WRITE, g, 4);
        set_that_moves(set, 0.125f);
        put(table + SET * g.slot, word, NAN); /* what stood there before does not matter */
        holds = holds && does(WRITE, g);
    }
    return holds;
}

/* A run from a slot with such a record is refused; one from any other slot of the table is not. */
static bool runs_good_records(void) {
    bool holds = true;
    for (int word = 0; word < SET / 4; word++) {
        given g = among(2, RUN, 1, (size_t)word % SLOTS);
        put(table + SET * g.slot, word, NAN);
        holds = holds && refuses(RUN, g, 4) && does(RUN, at(1, (g.slot + 1) % SLOTS));
    }
    return holds;
}

/* Map M's blob at two places. */
static void make_blobs(void) {
    memset(level, 0, sizeof level);
    for (size_t col = 4; col < 4 + 3 * SPOTS; col += 3) {
        level[0][col * ROWS + 4] = 0.25f;
        level[1][col * ROWS + 4] = -0.25f;
    }
}

/* Runs from each slot of either desk, with every room to more than the list: each slot has a list of its own. */
static bool runs_as_detection(void) {
    uint8_t first[SLOTS][URAMSHEG_SPOT_BYTES];
    bool holds = true;
    for (size_t i = 0; i < 2 * SLOTS; i++) {
        given g = among((uint8_t)(2 - i / SLOTS), RUN, 1 + i / SLOTS, i % SLOTS);
        for (g.room = 0; g.room <= SPOTS * URAMSHEG_SPOT_BYTES + 5; g.room++) holds = holds && does(RUN, g);
        memcpy(first[g.slot], out, sizeof first[0]);
        for (size_t slot = 0; slot < g.slot; slot++) holds = holds && memcmp(first[slot], first[g.slot], sizeof first[0]);
    }
    return holds;
}

/* A number from 0 on, below 1. */
static float some(void) {
    static uint32_t state = 1;
    state = state * 1664525 + 1013904223;
    return (float)(state >> 8) / 16777216;
}

/* Runs on maps of blobs, of other sides, octaves and heights and under other thresholds each time: all go where detection's go. */
static bool runs_on_any(void) {
    bool holds = true;
    int found = 0;
    for (int i = 0; i < 2000; i++) {
        given g = among(3, RUN, 1 + (size_t)i % 2, (size_t)i % SLOTS);
        g.rows = 9 + (size_t)(20 * some());
        g.cols = 9 + (size_t)(20 * some());
        g.octave = (size_t)(6 * some());
        for (int k = 0; k < 4; k++) g.level[k] = g.rows * g.cols;
        memset(level, 0, sizeof level);
        for (size_t place = 0; place < g.rows * g.cols; place++)
            for (int k = 0; k < 4 && place % g.rows % 3 == 1 && place / g.rows % 3 == 1; k++) level[k][place] = (some() - 0.5f) / (float)(1 + k * k);
        const float threshold[5] = {some(), 3 * some(), 20 * some(), 2 * some(), 2 + 2 * some()};
        memcpy(g.threshold, threshold, sizeof threshold);
        memcpy(due, table, LONGEST);
        holds = holds && call(RUN, g) == 0 && !memcmp(table, due, LONGEST) && is_detected(g, 0);
        found += value > 0;
    }
    make_blobs();
    return holds && found > 200;
}

/* What becomes of a slot of a new table, and that the other desk can do nothing to it. */
static bool passes_on(size_t desk, size_t slot) {
    given own = at(desk, slot), other = at(3 - desk, slot);
    memset(table, 0, BYTES);
    bool holds = refuses(RUN, own, 11) && refuses(WRITE, own, 11) && refuses(RELEASE, own, 11);
    holds = holds && does(CLAIM, own) && refuses(RUN, own, 4) && refuses(CLAIM, own, 11) && refuses(CLAIM, other, 11);
    holds = holds && does(WRITE, own) && does(RUN, own) && does(WRITE, own) && does(RUN, own);
    holds = holds && refuses(WRITE, other, 11) && refuses(RELEASE, other, 11) && does(RUN, own) && count_of(table, slot) == 3;
    holds = holds && does(RELEASE, own) && refuses(RUN, own, 11) && refuses(WRITE, own, 11) && !memcmp(table + SET * slot, set, SET);
    holds = holds && does(CLAIM, other) && refuses(RUN, own, 4) && refuses(WRITE, own, 11) && does(WRITE, other) && does(RUN, own);
    return holds && count_of(table, slot) == 5;
}

static void expect_of(kind k, const char *what, bool holds) {
    static const char *const names[KINDS] = {"claim", "write", "release", "run"};
    char name[128];
    snprintf(name, sizeof name, "desk %s: %s", names[k], what);
    expect(name, holds);
}

int main(void) {
    for (size_t slot = 0; slot < SLOTS; slot++) set_that_moves(sets[slot], 0.25f - (float)slot / 64);
    set_that_moves(set, 0.125f);
    make_blobs();
    for (kind k = CLAIM; k < KINDS; k++) {
        expect_of(k, "of all that is wrong the first is answered, and nothing is changed", orders(k));
        expect_of(k, "a table of another length is refused", takes_its_length(k));
        expect_of(k, "other desks and slots are refused", knows_desks_and_slots(k));
        expect_of(k, "the owner byte decides, and exactly the bytes change that are to", goes_by_owner(k));
        expect_of(k, "counts, largest and at their bytes' borders", goes_by_count(k));
    }
    expect("desk claim and write: a count's bytes go over into the next", carries(CLAIM) && carries(WRITE));
    expect("desk write: a record that is not good is refused", writes_good_records());
    expect("desk run: a record that is not good is refused", runs_good_records());
    expect("desk run: lists what detection with the slot's record lists, byte for byte", runs_as_detection() && runs_on_any());
    bool holds = true;
    for (size_t slot = 0; slot < SLOTS; slot++) holds = holds && passes_on(1, slot) && passes_on(2, slot);
    expect("desks: a slot is claimed, written, run from, given back and claimed by the other", holds);
    expect("desks: the numbers are the header's", BYTES == SLOTS * (SET + 1 + 4) && URAMSHEG_DESK_DAILY == 1 && URAMSHEG_DESK_REPROCESSING == 2
                                                      && URAMSHEG_REFUSED_NOT_YOURS == 11 && URAMSHEG_REFUSED_COUNT == 12);
    return failures != 0;
}
