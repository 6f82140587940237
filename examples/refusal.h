/* Why a call was refused, in words, for the examples. */
#include <inttypes.h>
#include <stdint.h>
#include <stdio.h>

#include "uramsheg.h"

static inline const char *why(uint32_t refused) {
    switch (refused) {
    case URAMSHEG_REFUSED_SIZE: return "rows or cols above 4096: cut the map into tiles";
    case URAMSHEG_REFUSED_LEVEL: return "a level or the raw map is not rows * cols long, or a column not rows";
    case URAMSHEG_REFUSED_OCTAVE: return "the octave is above 5";
    case URAMSHEG_REFUSED_SET: return "the set record is not 528 bytes long or not good (a claimed slot has a good one only once it is written)";
    case URAMSHEG_REFUSED_RECORDS: return "the list, or the store, is no whole number of records, or holds a bad one";
    case URAMSHEG_REFUSED_ROOM: return "a buffer is too short, or no slot of the store is free: lend a longer one";
    case URAMSHEG_REFUSED_NO_SIZE: return "the spot has no size";
    case URAMSHEG_REFUSED_THRESHOLDS: return "a threshold is not a number";
    case URAMSHEG_REFUSED_PAST: return "all columns of the feed have come: start another for the next map";
    case URAMSHEG_REFUSED_SCENE: return "rows or cols of the scene above 16384: cut it into several";
    case URAMSHEG_REFUSED_NOT_YOURS: return "there is no such table, desk or slot, or the slot is another's";
    case URAMSHEG_REFUSED_COUNT: return "the slot's write count is the largest: use another slot";
    case URAMSHEG_REFUSED_NO_SPOT: return "the slot is free, or the store has none of that number: strike one that holds a spot";
    default: return "for a reason that this program does not know";
    }
}

/* Says it; an example then ends with the answer. */
static inline int refuse(uint32_t refused) {
    fprintf(stderr, "refused %" PRIu32 ": %s\n", refused, why(refused));
    return 1;
}
