/* From C: the join of lists and of old lists, what each checks of a record, each refusal in its order, what is kept. Says what failed. */
#include <math.h>
#include <stdint.h>
#include <string.h>

#include "expect.h"
#include "uramsheg.h"

enum { ROWS = 9, COLS = 10, MOST = 6, MORE = 5, ROOM = MOST * URAMSHEG_SIZED_BYTES + MORE, FILL = 0xa5 };

static const uint8_t record_of_m[URAMSHEG_SPOT_BYTES] = {
    0x00, 0x00, 0x90, 0x40, 0x00, 0x00, 0x80, 0x40, 0x00, 0x00, 0x00, 0x40, 0x00, 0x00, 0x80, 0x40, 0x00, 0x00, 0x80, 0xbf, 0x00, 0x00, 0x80, 0x40,
    0x00, 0x00, 0x00, 0x00, 0x00, 0x00, 0x00, 0x00, 0x2c, 0x00, 0x00, 0x00, 0x00, 0x01, 0x01, 0x00, 0x00, 0x00, 0x00, 0x3f, 0x00, 0x00, 0x00, 0x00};

/* What a sized record of map M has behind its spot record, old or new: size, home pixel (4, 5), accepted, no cause. */
static const uint8_t rest_of_m[12] = {0xf3, 0x04, 0x35, 0x40, 4, 0, 5, 0, 1, 0, 0, 0};

static uint8_t set[URAMSHEG_SET_BYTES], list[MOST * URAMSHEG_SPOT_BYTES + 1], out[ROOM];
static uint64_t value;

/* The two joins, with the bytes of their records. */
typedef struct {
    uint32_t (*join)(const uint8_t *, size_t, size_t, size_t, const uint8_t *, size_t, uint8_t *, size_t, uint64_t *);
    size_t spot, sized;
} kind;

static const kind now = {uramsheg_join, URAMSHEG_SPOT_BYTES, URAMSHEG_SIZED_BYTES}, old = {uramsheg_join_old, URAMSHEG_OLD_SPOT_BYTES, URAMSHEG_OLD_SIZED_BYTES};

/* A list of map M's record, so many times. */
static void fill(kind k, size_t count) {
    memset(list, 0, sizeof list);
    for (size_t i = 0; i < count; i++) memcpy(list + i * k.spot, record_of_m, k.spot);
}

/* A call on an output that is filled before it. */
static uint32_t call(kind k, size_t set_length, size_t rows, size_t length, size_t room) {
    memset(out, FILL, sizeof out);
    value = 77;
    return k.join(set, set_length, rows, COLS, list, length, out, room, &value);
}

static bool is_kept(size_t from) {
    bool holds = true;
    for (size_t i = from; i < sizeof out; i++) holds = holds && out[i] == FILL;
    return holds;
}

/* Whether a call is refused with this number and value, and writes nothing. */
static bool refuses(kind k, size_t set_length, size_t rows, size_t length, size_t room, uint32_t number, uint64_t due) {
    return call(k, set_length, rows, length, room) == number && value == due && is_kept(0);
}

/* Whether lists of map M's record are sized, each record the same, and bytes past them are kept. */
static bool sizes(kind k) {
    bool holds = true;
    for (size_t count = 0; count <= MOST; count++) {
        size_t due = count * k.sized;
        fill(k, count);
        for (size_t room = due; room <= due + MORE; room++) {
            holds = holds && call(k, sizeof set, ROWS, count * k.spot, room) == 0 && value == count && is_kept(due);
            for (size_t i = 0; i < count; i++) {
                const uint8_t *sized = out + i * k.sized;
                holds = holds && !memcmp(sized, record_of_m, k.spot) && !memcmp(sized + k.spot, rest_of_m, sizeof rest_of_m);
            }
        }
    }
    return holds;
}

/* A call with some things wrong with it: of a side, the set's length, the list's length, a record and the room the first is answered, and nothing is written. */
static bool refuses_first(kind k) {
    bool holds = true;
    for (unsigned wrong = 1; wrong < 32; wrong++) {
        size_t length = 3 * k.spot - (wrong & 4 ? 1 : 0), room = 3 * k.sized - (wrong & 16 ? 1 : 0);
        uint32_t number = wrong & 1 ? 1 : wrong & 2 ? 4 : wrong & 12 ? 5 : 6;
        uint64_t due = number != 5 ? 0 : wrong & 4 ? 2 : 1;
        fill(k, 3);
        if (wrong & 8) list[k.spot + 38] = 2;
        holds = holds && refuses(k, sizeof set - (wrong & 2 ? 1 : 0), wrong & 1 ? 4097 : ROWS, length, room, number, due);
    }
    for (size_t length = 1; length < 3 * k.spot; length++)
        holds = holds && (length % k.spot == 0 || refuses(k, sizeof set, ROWS, length, ROOM, 5, length / k.spot));
    return holds;
}

/* Whether a record at the place 1 with these bytes at a byte is bad. */
static bool is_bad(kind k, size_t at, const void *bytes, size_t count) {
    fill(k, 3);
    memcpy(list + k.spot + at, bytes, count);
    return refuses(k, sizeof set, ROWS, 3 * k.spot, ROOM, 5, 1);
}

/* Each field that both kinds have is checked. */
static bool checks_fields(kind k) {
    static const float not_finite[3] = {NAN, INFINITY, -INFINITY};
    static const uint8_t bytes[6][2] = {{36, 6}, {37, 0}, {37, 3}, {38, 2}, {39, 1}, {36, 255}};
    static const float past[3] = {-0.5f, 9.5f, 8.5f};
    uint32_t key = ROWS * COLS;
    bool holds = is_bad(k, 32, &key, 4) && is_bad(k, 0, past, 4) && is_bad(k, 4, past, 4) && is_bad(k, 0, past + 1, 4) && is_bad(k, 4, past + 2, 4);
    for (size_t word = 0; word < 8; word++)
        for (int i = 0; i < 3; i++) holds = holds && is_bad(k, 4 * word, not_finite + i, 4);
    for (int i = 0; i < 6; i++) holds = holds && is_bad(k, bytes[i][0], bytes[i] + 1, 1);
    return holds;
}

/* Deltas to 0.6 are read, and kept byte for byte. */
static bool reads_deltas(void) {
    static const uint32_t sizes[5] = {0, 1, 0x3f000000, 0x3f199999, 0x3f19999a};
    bool holds = true;
    for (int i = 0; i < 20; i++) {
        uint32_t delta = sizes[i / 4] | (i & 1 ? 0x80000000 : 0);
        fill(now, 1);
        memcpy(list + (i & 2 ? 40 : 44), &delta, 4);
        holds = holds && call(now, sizeof set, ROWS, now.spot, now.sized) == 0 && !memcmp(out, list, now.spot) && !memcmp(out + 48, rest_of_m, 12);
    }
    return holds;
}

/* A longer one, or one that is not finite, is bad. */
static bool refuses_deltas(void) {
    static const uint32_t sizes[6] = {0x3f19999b, 0x3f800000, 0x7f7fffff, 0x7f800000, 0x7f800001, 0x7fc00000};
    bool holds = true;
    for (int i = 0; i < 24; i++) {
        uint32_t delta = sizes[i / 4] | (i & 1 ? 0x80000000 : 0);
        holds = holds && is_bad(now, i & 2 ? 40 : 44, &delta, 4);
    }
    return holds;
}

/* Lists that are given to the other join. */
static bool refuses_the_other_kind(void) {
    fill(old, 1);
    bool holds = refuses(now, sizeof set, ROWS, old.spot, ROOM, 5, 0);
    fill(now, 1);
    holds = holds && refuses(old, sizeof set, ROWS, now.spot, ROOM, 5, 1);
    fill(old, 6); /* as long as five new ones: a record is bad */
    holds = holds && refuses(now, sizeof set, ROWS, 6 * old.spot, ROOM, 5, 0);
    fill(now, 5);
    return holds && refuses(old, sizeof set, ROWS, 5 * now.spot, ROOM, 5, 1);
}

/* Octaves to 5 are taken. */
static bool takes_octaves(kind k) {
    bool holds = true;
    for (uint8_t octave = 0; octave < 6; octave++) {
        fill(k, 1);
        list[36] = octave;
        holds = holds && call(k, sizeof set, ROWS, k.spot, k.sized) == 0 && out[36] == octave;
    }
    return holds;
}

int main(void) {
    set_t(set);
    expect("join: map M's record is sized, and bytes past it are kept", sizes(now));
    expect("join: the first refusal is answered, and it writes nothing", refuses_first(now));
    expect("join: each field of a record is checked", checks_fields(now) && takes_octaves(now));
    expect("join: deltas to 0.6 are read, and kept byte for byte", reads_deltas());
    expect("join: a longer delta, or one that is not finite, is bad", refuses_deltas());
    expect("join of old lists: map M's old record gives the former 52 bytes, and bytes past them are kept", sizes(old));
    expect("join of old lists: the first refusal is answered, and it writes nothing", refuses_first(old));
    expect("join of old lists: each field of a record is checked", checks_fields(old) && takes_octaves(old));
    expect("join: a list of the other kind is refused", refuses_the_other_kind());
    expect("join: the lengths are the header's", now.spot == 48 && now.sized == 60 && old.spot == 40 && old.sized == 52);
    return failures != 0;
}
