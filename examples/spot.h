/* What the examples read of a record. */
#include <stdint.h>
#include <string.h>

#include "uramsheg.h"

/* The float at a word of a record. */
static float get(const uint8_t *record, int word) {
    float x;
    memcpy(&x, record + 4 * word, 4); /* the record is little-endian, as this machine is */
    return x;
}

/* Words and bytes of a sized record, which begins with the spot record. */
enum { DELTA_X = 10, DELTA_Y = 11, CORRECTED = 12, HOME_ROW = 52, HOME_COL = 54, ACCEPTED = 56, CAUSE = 57 };

/* The u16 at a byte of a record. */
static inline unsigned get_u16(const uint8_t *record, int at) {
    return record[at] + 256u * record[at + 1];
}

/* Why a spot has no size, in words. */
static inline const char *why_no_size(uint64_t cause) {
    switch (cause) {
    case URAMSHEG_NO_SIZE_POLARITY: return "no size: the curve is not one of this polarity";
    case URAMSHEG_NO_SIZE_RANGE: return "no size: beyond the fitted range";
    default: return "no size";
    }
}
