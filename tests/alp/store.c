/* From C: each call on a store. Its refusals, alone and in their order, which change nothing; its boundaries; what a call that is done changes of all that is lent.
 * Says what failed. */
#include <math.h>

#include "store.h"

enum { SLOTS = 6, BYTES = SPOT * SLOTS, STORES = 1 << SLOTS };

/* What a call is given that may be done. */
static const given usual = {BYTES, ROWS, COLS, 0, SPOT};

/* A store of six slots, which hold a spot where this number has a bit; and a record to be added. */
static void fill(unsigned live) {
    memset(lent, FILL, sizeof lent);
    memset(spot, FILL, sizeof spot);
    make_record(spot, 50 + live);
    for (unsigned slot = 0; slot < SLOTS; slot++) {
        if (live >> slot & 1)
            make_record(store + SPOT * slot, slot);
        else
            make_free(store + SPOT * slot);
    }
}

/* Whether a call is refused with this number and this value, and changes nothing. */
static bool refuses(kind k, given g, uint32_t number, uint64_t due_value) {
    memcpy(due, lent, sizeof lent);
    return answers(k, g, number, due_value);
}

/* Whether a call on the store of these live slots is done, and changes exactly what it is to. */
static bool does(kind k, given g, unsigned live) {
    uint8_t *bytes = due + GUARD;
    size_t to = 0, count = g.length / SPOT;
    memcpy(due, lent, sizeof lent);
    for (size_t slot = 0; slot < count && k == CLEAR; slot++) make_free(bytes + SPOT * slot);
    if (k == STRIKE) make_free(bytes + SPOT * g.slot);
    if (k == ADD) {
        while (live >> to & 1) to++;
        memcpy(bytes + SPOT * to, spot, SPOT);
    }
    if (k == CLOSE_UP) {
        for (size_t slot = 0; slot < count; slot++)
            if (live >> slot & 1) memcpy(bytes + SPOT * to++, store + SPOT * slot, SPOT);
        for (size_t slot = to; slot < count; slot++) make_free(bytes + SPOT * slot);
    }
    return answers(k, g, 0, to);
}

/* Makes a record bad, in one of eight ways. */
static void spoil(uint8_t record[SPOT], unsigned way) {
    static const uint8_t bytes[5][2] = {{POLARITY, 2}, {POLARITY, 255}, {39, 1}, {36, 6}, {37, 3}};
    make_record(record, way);
    if (way < 5) record[bytes[way][0]] = bytes[way][1];
    if (way == 5) put(record, 0, NAN);
    if (way == 6) put(record, 11, 0.75f);
    if (way == 7) memset(record, 0, SPOT);
}

/* What may be wrong with a call, and of those that are, what is answered. A kind that does not look at one of them is done all the same. */
enum { SIDE = 1, LENGTH = 2, BAD = 4, RECORD = 8, FULL = 16, NUMBER = 32, ALL = 64 };

static uint32_t first_of(kind k, unsigned wrong) {
    if (k != CLEAR && wrong & SIDE) return 1;
    if (wrong & LENGTH || (k != CLEAR && wrong & BAD) || (k == ADD && wrong & RECORD)) return 5;
    if (k == ADD && wrong & FULL) return 6;
    return k == STRIKE && wrong & NUMBER ? 13 : 0;
}

/* A call with some things wrong with it, each in one of several ways; where a slot is bad, so is the next. Each 5 has another value
 * beside it. */
static bool refused_first(kind k, unsigned wrong, unsigned way) {
    static const size_t lengths[8] = {BYTES - 1, 1, 3 * SPOT + 24, SPOT - 1, BYTES - 17, BYTES + SPOT + 5, SPOT + 1, 2 * SPOT - 1};
    static const size_t spot_lengths[4] = {0, SPOT - 1, SPOT + 1, 2 * SPOT};
    unsigned live = wrong & FULL ? STORES - 1 : way % 2 ? 0x15 : 0x2a, bad = way % 4;
    uint32_t number = first_of(k, wrong);
    given g = usual;
    fill(live);
    g.slot = wrong & FULL ? SLOTS + way : way % 2 ? 1 : 4;
    if (!(wrong & NUMBER)) g.slot = way % 2 ? 4 : 1;
    if (wrong & SIDE) *(way % 4 < 2 ? &g.rows : &g.cols) = way % 2 ? 4097 : SIZE_MAX;
    if (wrong & LENGTH) g.length = lengths[way];
    if (wrong & BAD) spoil(store + SPOT * bad, way);
    if (wrong & BAD) spoil(store + SPOT * (bad + 1), way);
    if (wrong & RECORD && way < 4) g.spot_length = spot_lengths[way];
    if (wrong & RECORD && way >= 4) spoil(spot, way);
    if (!number) return does(k, g, live);
    return refuses(k, g, number, number != 5 ? 0 : wrong & LENGTH ? g.length / SPOT : wrong & BAD ? bad : SLOTS);
}

static bool orders(kind k) {
    bool holds = true;
    for (unsigned wrong = 0; wrong < ALL; wrong++)
        for (unsigned way = 0; way < 8; way++) holds = holds && refused_first(k, wrong, way);
    return holds;
}

/* Every choice of live slots, and every slot: what is done, and to which slot. */
static bool goes_by_slots(kind k) {
    bool holds = true;
    for (unsigned live = 0; live < STORES; live++)
        for (unsigned slot = 0; slot < SLOTS; slot++) {
            given g = usual;
            g.slot = slot;
            fill(live);
            bool is_refused = (k == ADD && live == STORES - 1) || (k == STRIKE && !(live >> slot & 1));
            holds = holds && (is_refused ? refuses(k, g, k == ADD ? 6 : 13, 0) : does(k, g, live));
        }
    return holds;
}

/* Stores of every length, and what is behind them is not looked at: a store of no slots is one too. */
static bool takes_whole_slots(kind k) {
    bool holds = true;
    for (size_t length = 0; length <= BYTES + SPOT - 1; length++) {
        unsigned live = k == ADD ? 0x3e : 0x3d;
        given g = usual;
        g.length = length;
        fill(live);
        if (length % SPOT)
            holds = holds && refuses(k, g, 5, length / SPOT);
        else if (length == 0 && (k == ADD || k == STRIKE))
            holds = holds && refuses(k, g, k == ADD ? 6 : 13, 0);
        else
            holds = holds && does(k, g, live);
    }
    return holds;
}

/* A record at the last pixel of a map. */
static void make_last(uint8_t record[SPOT], size_t rows, size_t cols) {
    uint32_t key = (uint32_t)(rows * cols - 1);
    make_record(record, 1);
    put(record, 0, (float)(cols - 1));
    put(record, 1, (float)(rows - 1));
    memcpy(record + 32, &key, 4);
}

/* Sides at their borders: a store of free slots is one for any map, but a map of no pixels has no spot that could be added. */
static bool takes_sides(kind k) {
    static const size_t sides[9] = {0, 1, 2, 4095, 4096, 4097, 65536 + 9, ((size_t)1 << 32) + 9, SIZE_MAX};
    bool holds = true;
    for (int i = 0; i < 81; i++) {
        given g = {BYTES, sides[i / 9], sides[i % 9], 0, SPOT};
        fill(0);
        make_last(spot, g.rows, g.cols);
        if (k != CLEAR && (g.rows > 4096 || g.cols > 4096))
            holds = holds && refuses(k, g, 1, 0);
        else if (k == STRIKE)
            holds = holds && refuses(k, g, 13, 0);
        else if (k == ADD && g.rows * g.cols == 0)
            holds = holds && refuses(k, g, 5, SLOTS);
        else
            holds = holds && does(k, g, 0);
    }
    return holds;
}

/* A spot at the last pixel of a map is on that one, and on none that has a row or a col less: its slot is bad there. */
static bool goes_by_sides(kind k) {
    static const size_t sides[4] = {1, 2, 4095, 4096};
    bool holds = true;
    for (int i = 0; i < 16; i++)
        for (size_t less = 0; less < 4; less++) {
            size_t rows = sides[i / 4], cols = sides[i % 4];
            given g = {BYTES, rows - (less & 1), cols - (less >> 1), 3, SPOT};
            fill(8);
            make_last(spot, rows, cols);
            memcpy(store + SPOT * 3, spot, SPOT);
            holds = holds && (less && k != CLEAR ? refuses(k, g, 5, 3) : does(k, g, 8));
        }
    return holds;
}

/* A free slot has no other byte that is not 0; and a slot of zeros is bad, whatever its polarity. */
static bool knows_free_slots(kind k) {
    static const uint8_t others[3] = {1, 0x80, 255};
    bool holds = true;
    for (size_t i = 0; i < SLOTS * SPOT * 3; i++) {
        size_t slot = i / SPOT % SLOTS, at = i % SPOT;
        fill(0);
        store[SPOT * slot + at] = at == POLARITY ? 254 : others[i / BYTES];
        holds = holds && (k == CLEAR ? does(k, usual, 0) : refuses(k, usual, 5, slot));
    }
    for (unsigned polarity = 0; polarity < 255; polarity++) {
        fill(0);
        store[SPOT * 2 + POLARITY] = (uint8_t)polarity;
        holds = holds && (k == CLEAR ? does(k, usual, 0) : refuses(k, usual, 5, 2));
    }
    return holds;
}

/* Whether the join takes a record. */
static bool is_joined(const uint8_t record[SPOT]) {
    uint8_t set[URAMSHEG_SET_BYTES], out[URAMSHEG_SIZED_BYTES];
    set_t(set);
    return uramsheg_join(set, sizeof set, ROWS, COLS, record, SPOT, out, sizeof out, &value) == 0;
}

/* Whether a record in a slot, or one that is added, is bad exactly where the join says so. */
static bool judges(kind k, const uint8_t record[SPOT]) {
    unsigned live = k == ADD ? 0x2f : 0x3f;
    bool is_good = is_joined(record);
    given g = usual;
    fill(live);
    memcpy(k == ADD ? spot : store + SPOT * 4, record, SPOT);
    g.slot = 4;
    return is_good || k == CLEAR ? does(k, g, live) : refuses(k, g, 5, k == ADD ? SLOTS : 4);
}

/* A good record with any other byte at any place, and with words at the borders of its fields; some of them are good and some are bad. */
static bool judges_records(kind k) {
    static const uint32_t words[] = {0, 1, 0x80000000, 0x3f199999, 0x3f19999a, 0x3f19999b, 0xbf19999a, 0xbf19999b, 0x40ffffff, 0x41000000, 0x41000001, 0x41100000,
                                     0x41100001, 0x7f7fffff, 0xff7fffff, 0x7f800000, 0xff800000, 0x7fc00000, 0xff800001, 89, 90, 0x010000, 0x050200, UINT32_MAX};
    uint8_t record[SPOT];
    int good = 0, bad = 0;
    bool holds = true;
    for (unsigned i = 0; i < SPOT * 256 && holds; i++) {
        make_record(record, 17);
        record[i / 256] = (uint8_t)(i % 256);
        holds = judges(k, record);
    }
    for (unsigned i = 0; i < SPOT / 4 * (sizeof words / 4) && holds; i++) {
        make_record(record, 17);
        memcpy(record + 4 * (i % 12), words + i / 12, 4);
        holds = judges(k, record);
        *(is_joined(record) ? &good : &bad) += 1;
    }
    return holds && good > 50 && bad > 50;
}

/* Records of another length are not added, nor is what a free slot holds. */
static bool adds_records(void) {
    bool holds = true;
    for (size_t length = 0; length <= LONGEST_SPOT; length++) {
        given g = usual;
        g.spot_length = length;
        fill(0x2b);
        memcpy(spot + SPOT, spot, SPOT);
        holds = holds && (length == SPOT ? does(ADD, g, 0x2b) : refuses(ADD, g, 5, SLOTS));
    }
    for (unsigned live = 0; live < STORES; live++) {
        fill(live);
        make_free(spot);
        holds = holds && refuses(ADD, usual, 5, SLOTS);
    }
    return holds;
}

/* Slots that a store does not have, of stores of each length: 48 << 60 is a multiple of 1 << 64. */
static bool strikes_none_behind(void) {
    static const size_t far[8] = {0, 1, 255, 65536, (size_t)1 << 32, (size_t)1 << 60, (size_t)1 << 63, SIZE_MAX - SLOTS};
    bool holds = true;
    for (size_t count = 0; count <= SLOTS; count++)
        for (size_t i = 0; i < 8 * (SLOTS + 1); i++) {
            given g = {SPOT * count, ROWS, COLS, far[i / (SLOTS + 1)] + i % (SLOTS + 1), SPOT};
            fill(STORES - 1);
            holds = holds && (g.slot < count ? does(STRIKE, g, STORES - 1) : refuses(STRIKE, g, 13, 0));
        }
    return holds;
}

/* Clearing asks for whole slots and for nothing else. */
static bool clears_anything(void) {
    bool holds = takes_sides(CLEAR) && goes_by_sides(CLEAR) && knows_free_slots(CLEAR) && judges_records(CLEAR);
    for (unsigned byte = 0; byte < 256; byte++) {
        fill(0);
        memset(store, (int)byte, BYTES);
        holds = holds && does(CLEAR, usual, 0);
    }
    return holds;
}

static void expect_of(kind k, const char *what, bool holds) {
    static const char *const names[KINDS] = {"clear", "add", "strike", "close up"};
    char name[128];
    snprintf(name, sizeof name, "store %s: %s", names[k], what);
    expect(name, holds);
}

int main(void) {
    for (kind k = CLEAR; k < KINDS; k++) {
        expect_of(k, "of all that is wrong the first is answered, and nothing is changed", orders(k));
        expect_of(k, "the slots decide, and exactly the bytes change that are to", goes_by_slots(k));
        expect_of(k, "a store is whole slots, and may have none", takes_whole_slots(k));
    }
    for (kind k = ADD; k < KINDS; k++) {
        expect_of(k, "sides to 4,096, and slots that are bad by them", takes_sides(k) && goes_by_sides(k));
        expect_of(k, "a free slot has 255 at its polarity and zeros else", knows_free_slots(k));
        expect_of(k, "a record is bad exactly where the join says so", judges_records(k));
    }
    expect("store clear: nothing else is asked, and any bytes are cleared", clears_anything());
    expect("store add: a record of another length, or a free slot's bytes, is refused", adds_records());
    expect("store strike: a slot that the store does not have is refused", strikes_none_behind());
    expect("store: the numbers are the header's", URAMSHEG_FREE_SLOT == 255 && URAMSHEG_REFUSED_NO_SPOT == 13 && SPOT == 48);
    return failures != 0;
}
