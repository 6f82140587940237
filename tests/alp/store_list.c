/* From C: any calls on a store beside a plain list of optional spots, and what a store that is closed up hands to the join. Says what failed. */
#include "store.h"

typedef struct { bool is_live; uint8_t record[SPOT]; } optional;

static optional list[MOST];
static size_t slots;

/* How often each answer came, of each kind. */
static unsigned came[KINDS][14];

static unsigned below(unsigned end) {
    static uint64_t state = 1;
    state = state * 6364136223846793005 + 1442695040888963407;
    return (unsigned)(state >> 33) % end;
}

/* The bytes of the list. */
static void write_list(uint8_t *bytes) {
    memset(bytes, FILL, sizeof lent);
    for (size_t slot = 0; slot < slots; slot++) {
        make_free(bytes + GUARD + SPOT * slot);
        if (list[slot].is_live) memcpy(bytes + GUARD + SPOT * slot, list[slot].record, SPOT);
    }
}

/* A list of so many slots, of which about so many in eight hold a spot. */
static void make_list(size_t count, unsigned eighths) {
    slots = count;
    for (size_t slot = 0; slot < slots; slot++) {
        list[slot].is_live = below(8) < eighths;
        make_record(list[slot].record, below(1000));
    }
    write_list(lent);
}

/* Adds the record to the list: the slot, or how many there are where none is free. */
static size_t added(void) {
    size_t slot = 0;
    while (slot < slots && list[slot].is_live) slot++;
    if (slot < slots) {
        list[slot].is_live = true;
        memcpy(list[slot].record, spot, SPOT);
    }
    return slot;
}

/* Closes the list up: how many spots it holds. */
static size_t closed_up(void) {
    size_t to = 0;
    for (size_t slot = 0; slot < slots; slot++)
        if (list[slot].is_live) list[to++] = list[slot];
    for (size_t slot = to; slot < slots; slot++) list[slot].is_live = false;
    return to;
}

/* Does to the list what the call does to the store: what is answered, with the value beside it. */
static uint32_t listed(kind k, given g, bool is_good, uint64_t *due_value) {
    *due_value = 0;
    if (k == CLEAR)
        for (size_t slot = 0; slot < slots; slot++) list[slot].is_live = false;
    if (k == CLEAR) return 0;
    if (g.rows > 4096) return 1;
    if (k == CLOSE_UP) *due_value = closed_up();
    if (k == CLOSE_UP) return 0;
    if (k == STRIKE) {
        if (g.slot >= slots || !list[g.slot].is_live) return 13;
        list[g.slot].is_live = false;
        return 0;
    }
    if (!is_good) *due_value = slots;
    if (!is_good) return 5;
    size_t slot = added();
    if (slot == slots) return 6;
    *due_value = slot;
    return 0;
}

/* Some call: most are added and struck, few are refused for a side or a record. */
static bool is_called(void) {
    static const kind kinds[16] = {ADD, ADD, ADD, ADD, ADD, ADD, ADD, STRIKE, STRIKE, STRIKE, STRIKE, STRIKE, STRIKE, STRIKE, CLOSE_UP, CLEAR};
    kind k = kinds[below(below(8) ? 15 : 16)];
    bool is_good = below(16);
    given g = {SPOT * slots, below(20) ? ROWS : 4097, COLS, below((unsigned)slots + 2), is_good || below(2) ? SPOT : below(SPOT)};
    uint64_t due_value;
    make_record(spot, below(1000));
    if (!is_good) spot[POLARITY] = (uint8_t)(2 + below(254));
    uint32_t number = listed(k, g, is_good, &due_value);
    write_list(due);
    came[k][number]++;
    return answers(k, g, number, due_value);
}

/* Histories of stores of any length, from any beginning. */
static bool is_a_list(void) {
    bool holds = true;
    for (unsigned history = 0; history < 2000 && holds; history++) {
        make_list(below(history % 8 ? 12 : MOST + 1), below(9));
        for (int step = 0; step < 200 && holds; step++) holds = is_called();
    }
    return holds;
}

/* What the histories were to come to. */
static bool came_everywhere(void) {
    static const unsigned due_numbers[9][2] = {{CLEAR, 0}, {ADD, 0}, {ADD, 1}, {ADD, 5}, {ADD, 6}, {STRIKE, 0}, {STRIKE, 1}, {STRIKE, 13}, {CLOSE_UP, 0}};
    bool holds = true;
    for (int i = 0; i < 9; i++) holds = holds && came[due_numbers[i][0]][due_numbers[i][1]] > 1000;
    return holds;
}

/* A store is closed up, and once more, which changes nothing. */
static bool closes_up(void) {
    bool holds = true;
    for (unsigned i = 0; i < 9 * 2 * MOST && holds; i++) {
        make_list(i / 18 + 1, i % 9);
        given g = {SPOT * slots, ROWS, COLS, 0, SPOT};
        size_t live = closed_up();
        write_list(due);
        holds = answers(CLOSE_UP, g, 0, live) && answers(CLOSE_UP, g, 0, live);
    }
    return holds;
}

/* The first records of a store that is closed up are a list that the join takes, in their order and byte for byte; one record more is a free slot, and bad. */
static bool is_joined(void) {
    static uint8_t set[URAMSHEG_SET_BYTES], out[URAMSHEG_SIZED_BYTES * MOST];
    bool holds = true;
    set_t(set);
    for (unsigned i = 0; i < 9 * MOST && holds; i++) {
        uint64_t count;
        make_list(i / 9 + 1, i % 9);
        uint32_t number = uramsheg_store_close_up(store, SPOT * slots, ROWS, COLS, &value);
        holds = number == 0 && value == closed_up();
        holds = holds && uramsheg_join(set, sizeof set, ROWS, COLS, store, SPOT * value, out, sizeof out, &count) == 0 && count == value;
        for (size_t slot = 0; slot < value && holds; slot++) holds = !memcmp(out + URAMSHEG_SIZED_BYTES * slot, list[slot].record, SPOT);
        if (value < slots && holds)
            holds = uramsheg_join(set, sizeof set, ROWS, COLS, store, SPOT * (value + 1), out, sizeof out, &count) == 5 && count == value;
    }
    return holds;
}

int main(void) {
    expect("store: any calls answer and leave what a list of optional spots does", is_a_list() && came_everywhere());
    expect("store close up: the live spots move down in their order, once and for all", closes_up());
    expect("store close up: the join takes what is handed to it, and not one slot more", is_joined());
    return failures != 0;
}
