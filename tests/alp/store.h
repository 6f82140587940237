/* What the checks of a store share: its lent bytes, records that are good, and a call of each kind. */
#include <stdbool.h>
#include <stdint.h>
#include <string.h>

#include "expect.h"
#include "uramsheg.h"

enum { SPOT = URAMSHEG_SPOT_BYTES, POLARITY = 38, ROWS = 9, COLS = 10, MOST = 200, GUARD = 49, FILL = 0xa5, LONGEST_SPOT = 2 * SPOT + 1 };

typedef enum { CLEAR, ADD, STRIKE, CLOSE_UP, KINDS } kind;

/* What a call is given beside the bytes. */
typedef struct { size_t length, rows, cols, slot, spot_length; } given;

/* The store lies at an odd address; `due` is what the lent bytes are to be after a call, with what lies before the store and behind it. */
static uint8_t lent[GUARD + SPOT * MOST + GUARD], *const store = lent + GUARD, due[sizeof lent], spot[LONGEST_SPOT];
static uint64_t value;

/* What a free slot is. */
static void make_free(uint8_t slot[SPOT]) {
    memset(slot, 0, SPOT);
    slot[POLARITY] = 255;
}

/* A record that is good on 9 rows and 10 cols, for each number another. */
static void make_record(uint8_t record[SPOT], unsigned number) {
    uint32_t row = number / COLS % ROWS, col = number % COLS, key = row * COLS + col;
    memset(record, 0, SPOT);
    put(record, 0, (float)col);
    put(record, 1, (float)row);
    for (int word = 2; word < 8; word++) put(record, word, (float)number / (float)word - 1);
    memcpy(record + 32, &key, 4); /* the record is little-endian, as this machine is */
    record[36] = (uint8_t)(number % 6);
    record[37] = (uint8_t)(1 + number % 2);
    record[POLARITY] = (uint8_t)(number / 2 % 2);
    put(record, 10, number % 5 ? 0.6f : -0.0f);
    put(record, 11, number % 3 ? -0.6f : 0);
}

/* Whether a call answers this number and this value, and leaves what is due. */
static bool answers(kind k, given g, uint32_t number, uint64_t due_value) {
    uint32_t answer = 77;
    value = 77;
    if (k == CLEAR) answer = uramsheg_store_clear(store, g.length, &value);
    if (k == ADD) answer = uramsheg_store_add(store, g.length, g.rows, g.cols, spot, g.spot_length, &value);
    if (k == STRIKE) answer = uramsheg_store_strike(store, g.length, g.rows, g.cols, g.slot, &value);
    if (k == CLOSE_UP) answer = uramsheg_store_close_up(store, g.length, g.rows, g.cols, &value);
    return answer == number && value == due_value && !memcmp(lent, due, sizeof lent);
}
