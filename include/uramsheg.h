/* Uramsheg's detector: makes the four blurred levels of a raw gas map, lists the spots of four levels, whole, column by column or, of a large scene, tile by
 * tile, and gives each its size; keeps the sets of two desks in one table, and a day's spots in a store; reads a partner's list beside the one
 * that is due. Proved in Rattle; see docs/PROMISES.md.
 *
 * Link with libalp_c.a (`tests/staticlib alp_c` writes target/staticlib/libalp_c.a); it needs nothing else.
 * Its code is for x86-64-v2 processors, and does not ask the one that it runs on.
 * Every call ends, whatever it is given. A slice is a pointer and its length in elements; a pointer must be valid for that length, and what is written to
 * must overlap nothing else.
 *
 * A raw map, and a level: rows * cols floats by columns, pixel (row, col) at col * rows + row. Sides are 0 to 4096, of a scene 0 to 16384.
 *
 * A set record (528 bytes, little-endian): 4 sigmas; 12 scale cubic entries and 12 geometry cubic entries (rows a, b, c, d of three); 45 spatial
 * entries (rows w1 to w5 of nine) for scale index 1, then 45 for 2; 11 numbers (log sigma origin, curvature epsilon, fit T min, T max, accepted sigma
 * min, max, blend beta, boost, compatibility lower, upper, move cap), all f32; 9 sample-order bytes; 3 zero bytes. It is good when all 129 floats are
 * finite, the sigmas are positive and strictly rising, the cap is not below 0, each order byte is under 9 and the spare bytes are 0.
 *
 * A spot record (48 bytes, little-endian):
 *   0 x, 4 y, 8 sigma, 12 peak, 16 20 24 28 the four centre samples (f32 each); 32 order key u32 (row * cols + col of the spot's own pixel);
 *   36 octave, 37 scale index (1 or 2), 38 polarity (1 maximum, 0 minimum), 39 zero; 40 delta x, 44 delta y (f32 each)
 * The deltas are how far detection moved the spot from its own pixel, as computed, a zero always +0.0. x is the pixel's col plus delta x, rounded once, and y
 * its row plus delta y. At a large x the rounding spoils the move: x less the col is delta x only nearly.
 * A record is bad unless its floats are finite, x is 0 to cols-1, y 0 to rows-1, the key under rows*cols, octave to 5, index 1 or 2, polarity 0 or 1,
 * byte 39 0, and each delta at most the f32 0.6 (0x3f19999a) in size. A delta of -0.0 is fine; that x and y are the pixel plus the deltas is not checked.
 * Detection writes no bad record.
 *
 * A sized record (60 bytes, little-endian): the spot record; 48 corrected sigma f32 (+0.0 where the spot has no size); 52 home row u16, 54 home col u16
 * (the pixel nearest to y and x, a half to the larger); 56 accepted (1 where there is a size, else 0); 57 cause (0 where there is a size, else why there is
 * none: 1 or 2, see URAMSHEG_NO_SIZE_POLARITY and URAMSHEG_NO_SIZE_RANGE); 58 59 zero
 * Detection moves a spot by at most 0.6 of a pixel each way, so that its home pixel is its own or one of the eight around it.
 *
 * Lists from before there were deltas are of old spot records (40 bytes: the first 40 of a spot record); uramsheg_join_old sizes them.
 *
 * A worked case, map M: under the set that examples/map_m.h builds, 9 rows by 10 cols, all 0 but pixel (4,4), 0.25 in level 0 and -0.25 in level 1,
 * thresholds 1, 1, 10, window 1.9027314 to 4.1498866, octave 0, the list is the one record
 *   00009040000080400000004000008040000080bf0000804000000000000000002c000000000101000000003f00000000
 * examples/detect.c prints it with its move, half a pixel in x, its home pixel, (4,5), and its size.
 */
#ifndef URAMSHEG_H
#define URAMSHEG_H

#include <stdbool.h>
#include <stddef.h>
#include <stdint.h>

#ifdef __cplusplus
extern "C" {
#endif

enum { URAMSHEG_SET_BYTES = 528, URAMSHEG_SPOT_BYTES = 48, URAMSHEG_SIZED_BYTES = 60, URAMSHEG_FEED_BYTES = 564, URAMSHEG_RING_COLUMNS = 5 };

/* The records from before there were deltas, which uramsheg_join_old reads and writes. */
enum { URAMSHEG_OLD_SPOT_BYTES = 40, URAMSHEG_OLD_SIZED_BYTES = 52 };

/* A scene: its records' bytes, its longest side, how far apart its tiles start, and how long they are. */
enum { URAMSHEG_SCENE_BYTES = 64, URAMSHEG_SCENE_LONGEST = 16384, URAMSHEG_TILE_STEP = 4088, URAMSHEG_TILE_LENGTH = 4096 };

/* A table of sets that two desks share: its bytes, its slots, and the desks. */
enum { URAMSHEG_TABLE_BYTES = 4264, URAMSHEG_TABLE_SLOTS = 8, URAMSHEG_DESK_DAILY = 1, URAMSHEG_DESK_REPROCESSING = 2 };

/* A store of spots: the polarity byte (byte 38) of a free slot. Its slots are as long as a spot record. */
enum { URAMSHEG_FREE_SLOT = 255 };

/* What uramsheg_accept finds of a list. A refused call finds nothing: its finding is 0, never yes. */
enum {
    URAMSHEG_NO_FINDING = 0,    /* the call was refused */
    URAMSHEG_LIST_ACCEPTED = 1, /* yes: the list is the one that is due, bit for bit */
    URAMSHEG_LIST_EXTRA = 2,    /* the record there comes before the one that is due, or stands behind the last */
    URAMSHEG_LIST_ABSENT = 3,   /* the record that is due there is not: one that comes after it is, or the list ends */
    URAMSHEG_LIST_DIFFERENT = 4 /* the record has the key and the polarity of the one that is due there, and another byte differs */
};

/* What a call answers: 0, or why it was refused. Of the call's checks, in its order, the first that holds is answered; each call gives its order below,
 * and the numbers say nothing about it. */
enum {
    URAMSHEG_DONE = 0,
    URAMSHEG_REFUSED_SIZE = 1,      /* rows or cols above 4096: cut the map into tiles, as uramsheg_scene does with levels */
    URAMSHEG_REFUSED_LEVEL = 2,     /* a level, or the raw map, is not rows * cols long; a feed's column is not rows long */
    URAMSHEG_REFUSED_OCTAVE = 3,    /* octave above 5 */
    URAMSHEG_REFUSED_SET = 4,       /* the set record is not 528 bytes long or not good */
    URAMSHEG_REFUSED_RECORDS = 5,   /* the list is no whole number of records (*value is how many are whole), or holds a bad one (*value is its index); of a
                                       store, its slots and the record that is added to it alike */
    URAMSHEG_REFUSED_ROOM = 6,      /* the output, one of four levels, of a ring's or a scene's tile slices, or the room for a feed's state is shorter than
                                       needed; of a scene alone *value is then the number of tiles that were written whole; of a store no slot is free */
    URAMSHEG_REFUSED_NO_SIZE = 7,   /* the spot has no size; *cause says why */
    URAMSHEG_REFUSED_THRESHOLDS = 8, /* a threshold is not a number: one of the five is a NaN, as a blank in a sheet reads */
    URAMSHEG_REFUSED_PAST = 9,       /* all columns of the feed have come: start another */
    URAMSHEG_REFUSED_SCENE = 10,     /* rows or cols of a scene above 16384: cut it into several */
    URAMSHEG_REFUSED_NOT_YOURS = 11, /* the table is not 4264 bytes long, the desk not 1 or 2, the slot above 7, or not free for a claim, not the desk's own
                                        for a write or a release, of neither desk for a run */
    URAMSHEG_REFUSED_COUNT = 12,     /* the slot's write count is 4294967295, the largest: use another slot */
    URAMSHEG_REFUSED_NO_SPOT = 13    /* the store's slot holds no spot: it is free, or there is none of that number */
};

/* Why a spot has no size: of the two, in this order, the first that holds. It stands in byte 57 of a sized record, 49 of an old one, and in *cause
 * beside 7. */
enum {
    URAMSHEG_NO_SIZE_POLARITY = 1, /* at the spot's sigma its curve is not one of its polarity: bent the other way, too weakly, or not finite */
    URAMSHEG_NO_SIZE_RANGE = 2     /* it is, but the size that it leads to is beyond the fitted range, or not finite */
};

/* Blurs a raw map into its four levels, each at the start of its own buffer.
 * A map of octave 0 is taken to have a blur of 0.5 pixels, one of a later octave (level 2 of the octave before, halved) half the set's third sigma. Level k
 * is blurred to the set's sigma k by a kernel of the incremental sigma, the root of the difference of the two squares, at least 0.1: a Gaussian's taps to
 * the radius R_k, 3 times that sigma rounded up, 1 to 16, divided by their sum. It goes first across columns, the edge column repeated, then along rows,
 * the edge row repeated; a pixel's sum begins with the centre and goes outward, each pair summed before it is weighted.
 * A lost raw pixel (a NaN or an infinity) makes exactly the pixels at most R_k rows and R_k cols off non-finite in level k, and changes no other. So
 * uramsheg_detect strikes exactly the spots whose own pixel is at most R + 2 rows and cols off a lost raw one, R the largest of the four radii, save the
 * four corners R + 2 off both ways. Where the sums of finite raw pixels overflow, a level is not finite there either.
 * Answers 0; a buffer may be longer than rows * cols, and its later floats are kept.
 * Refused (checked in the order 1, 2, 3, 4, 6), it answers the number, and all four buffers are untouched.
 * It takes at most some 50 KB of stack and no heap. The raw map and the four buffers must not overlap. */
uint32_t uramsheg_levels(const uint8_t *set, size_t set_length, size_t rows, size_t cols, size_t octave,
                         const float *raw, size_t raw_length,
                         float *level0, size_t level0_length, float *level1, size_t level1_length,
                         float *level2, size_t level2_length, float *level3, size_t level3_length);

/* Lists the spots of four levels in `out`, by rising order key, at one key the minimum before the maximum.
 * Answers 0 and the number of spots in *value; `out` then begins with as many whole records as fit, and its later bytes are kept. A short `out` is no
 * refusal: *value is the full number all the same. A threshold may be infinite, and the window's low above its high.
 * Refused (checked in the order 1, 2, 3, 8, 4), it answers the number, *value is 0, and `out` is untouched. */
uint32_t uramsheg_detect(const uint8_t *set, size_t set_length,
                         float peak_threshold, float sigma_threshold, float curvature_ratio, float window_low, float window_high,
                         size_t rows, size_t cols, size_t octave,
                         const float *level0, size_t level0_length, const float *level1, size_t level1_length,
                         const float *level2, size_t level2_length, const float *level3, size_t level3_length,
                         uint8_t *out, size_t out_length, uint64_t *value);

/* A feed: the spots of a map whose columns come one after the other, from a scanner say, without the whole map in memory.
 *
 * What is lent: a ring of four slices, one for each level, of 5 * rows floats each, and a state of URAMSHEG_FEED_BYTES bytes. A slice may be longer; its
 * later floats are kept: on maps of 4,096 rows slices 1,024 floats longer keep the same rows of all levels from pushing each other out of a near cache of few
 * ways (docs/BENCHMARKS.md, the feed). Start the feed, then give it column 0, 1, .. of each level, with the same
 * ring and the same state each time, until all cols have come. Column c is judged when c + 2 has come, so that each call answers with the records of the
 * column two before the one that it is given; the first six calls and the last two list nothing. Over a whole feed the records are those of uramsheg_detect
 * on the same levels, bit for bit: put them in the order of their keys, at one key the minimum first, and the lists are equal. A feed that stops early has
 * listed exactly the spots of the columns judged so far. A map, a set or thresholds of another kind take another feed; two feeds take two states and two
 * rings.
 *
 * The state (little-endian): 0 the set record; 528 peak threshold, 532 sigma threshold, 536 curvature ratio, 540 window low, 544 window high (f32 each);
 * 548 rows, 552 cols, 556 position, the number of columns taken (u32 each); 560 octave; 561 562 563 zero. It has no pointer in it, so that it may be copied,
 * kept and sent; with a copy of the ring it goes on where the copy was made. Bytes that start did not write make some state too, and no call with them reads or
 * writes out of bounds; what it then lists is nobody's. A state of zeros takes no column: every call is 9. */

/* Begins a feed: writes its state to the start of `state`, whose later bytes are kept. The ring is only measured, and never written.
 * Answers 0. Refused (checked in the order 1, 3, 8, 4, 6 for the ring or the state's room), it answers the number, and `state` is untouched. */
uint32_t uramsheg_feed_start(const uint8_t *set, size_t set_length,
                             float peak_threshold, float sigma_threshold, float curvature_ratio, float window_low, float window_high,
                             size_t rows, size_t cols, size_t octave,
                             const float *ring0, size_t ring0_length, const float *ring1, size_t ring1_length,
                             const float *ring2, size_t ring2_length, const float *ring3, size_t ring3_length,
                             uint8_t *state, size_t state_length);

/* Gives the next column of each level. Answers 0 and the number of records in *value; `out` then begins with them, by rising row, at one pixel the minimum
 * before the maximum, and its later bytes are kept. Room for 2 * rows records is always enough.
 * Refused, it answers the number: 9 once all columns have come (or where `state` is shorter than a state), then 2 where a column is not rows long, then 6 where
 * a slice of the ring is shorter than 5 * rows or the records don't all fit in `out`. A refusal changes nothing, and *value is 0: the column may be given
 * again, with more room say, and gives what it would have given at once.
 * It takes at most some 64 KB of stack and no heap. The columns, the ring's slices, `state`, `out` and `value` must not overlap. */
uint32_t uramsheg_feed_column(uint8_t *state, size_t state_length,
                              const float *column0, size_t column0_length, const float *column1, size_t column1_length,
                              const float *column2, size_t column2_length, const float *column3, size_t column3_length,
                              float *ring0, size_t ring0_length, float *ring1, size_t ring1_length,
                              float *ring2, size_t ring2_length, float *ring3, size_t ring3_length,
                              uint8_t *out, size_t out_length, uint64_t *value);

/* Sizes the records of a list that was found on a map of rows by cols: a sized record for each, in the list's order, in `out`.
 * A size comes from the four samples, the sigma and the polarity in the spot's own record, and from nothing else; a home pixel from its y and x alone.
 * Answers 0 and the number of records in *value; bytes of `out` past the sized records are kept.
 * Refused (checked in the order 1, 4, 5 for the list's length, 5 for a record, 6), it answers the number and leaves `out` untouched; *value is 0, but
 * for 5: then it is the number of whole records where the list's length is no multiple of 48, else the index of the first bad record. The records of
 * uramsheg_detect for the same rows and cols are never refused with 5. The deltas are kept byte for byte. */
uint32_t uramsheg_join(const uint8_t *set, size_t set_length, size_t rows, size_t cols,
                       const uint8_t *list, size_t list_length, uint8_t *out, size_t out_length, uint64_t *value);

/* Sizes the records of an old list, from before there were deltas: an old sized record for each, in the list's order, in `out`.
 * An old spot record is the first 40 bytes of a spot record. An old sized record (52 bytes, little-endian): the old spot record; 40 corrected sigma f32;
 * 44 home row u16, 46 home col u16; 48 accepted; 49 cause; 50 51 zero. These are what uramsheg_join gives; an old record has no delta, so that none is checked.
 * A list's length alone does not say which kind it is: six old records are as long as five new ones.
 * Answers 0 and the number of records in *value; bytes of `out` past the old sized records are kept.
 * Refused (checked in the order 1, 4, 5 for the list's length, 5 for a record, 6), it answers the number and leaves `out` untouched; *value is 0, but
 * for 5: then it is the number of whole records where the list's length is no multiple of 40, else the index of the first bad record. */
uint32_t uramsheg_join_old(const uint8_t *set, size_t set_length, size_t rows, size_t cols,
                           const uint8_t *list, size_t list_length, uint8_t *out, size_t out_length, uint64_t *value);

/* A scene: the sized spots of four levels with sides to 16,384, cut into tiles. Each tile is copied, detected and joined as a map of its own.
 *
 * The tiles: along a side of n pixels tile k starts at 4088 * k and is 4,096 pixels long, or as many as are left. Another follows only while pixels past
 * it remain: there are 1 + (n - 9) / 4088 tiles, the quotient rounded down, and 1 where n is under 9. A side of 0 has one tile of no pixels. A tile shares 8
 * pixels with the one before it. The four pixels at a tile's sides are not judged in it, so that each pixel of the scene, but for the four at the scene's
 * own sides, is judged in exactly one tile.
 *
 * A scene's record (64 bytes, little-endian): 0 tile row u16, 2 tile col u16 (the tile's numbers k, not its first pixel); 4 the sized record, as
 * uramsheg_join gives it for the tile.
 * x, y, order key and home pixel are the tile's own. In the scene x is 4088 * tile col + x and y is 4088 * tile row + y, both exact in a double, and the
 * pixel that the spot was found at is (4088 * tile row + key / w, 4088 * tile col + key % w), w the tile's cols.
 * All else is the scene's: sigma, peak, samples, octave, index, polarity, deltas, corrected sigma, accepted and cause are what uramsheg_detect and
 * uramsheg_join would give of the whole scene if they took it, each pixel and polarity once. Places are not: such a list would round what is x 4092.49999
 * here to the float 4092.5, and give the spot another home.
 *
 * What is lent: four tile slices, one for each level, of at least min(rows, 4096) * min(cols, 4096) floats each, and `out`. Tiles go row by row: (0,0),
 * (0,1), .., then (1,0), .. A tile's levels are copied to the fronts of the slices by the tile's own rows: pixel (row, col) of a tile of h rows goes to
 * col * h + row. What is behind a copy is kept: after the call a slice begins with the last copy; behind it stands what longer ones before it left, then what
 * was there before the call.
 *
 * Answers 0 and the number of records in *value; `out` then begins with them, one tile's after the other's, each tile's in the order of its list, and its
 * later bytes are kept.
 * Refused (checked in the order 10, 2, 3, 8, 4, 6 for a tile slice; there is no 1), it answers the number, *value is 0, and all five buffers are untouched.
 * Past these checks, 6 is answered where a tile's records don't all fit in the rest of `out`: *value is the number of tiles before it, those without records
 * too; `out` begins with exactly their records and its later bytes are kept; the slices begin with the copy of the tile that did not fit. How many records
 * these are is not told: where `out` was filled with 0xff before the call, a tile row of 65535, which is none, shows where they end.
 * A tile of more than 2,730 spots is detected twice. The call takes at most some 384 KB of stack and no heap. The levels, the tile slices, `out` and `value`
 * must not overlap. */
uint32_t uramsheg_scene(const uint8_t *set, size_t set_length,
                        float peak_threshold, float sigma_threshold, float curvature_ratio, float window_low, float window_high,
                        size_t rows, size_t cols, size_t octave,
                        const float *level0, size_t level0_length, const float *level1, size_t level1_length,
                        const float *level2, size_t level2_length, const float *level3, size_t level3_length,
                        float *tile0, size_t tile0_length, float *tile1, size_t tile1_length,
                        float *tile2, size_t tile2_length, float *tile3, size_t tile3_length,
                        uint8_t *out, size_t out_length, uint64_t *value);

/* A table of sets for two desks: eight slots, each with a set record, an owner and a write count, so that reprocessing has its own sets beside the daily
 * desk's. A desk claims a free slot, writes its own, and gives it back; anybody may run detection from a slot that a desk owns.
 *
 * The table (4264 bytes, little-endian), lent at each call: 0 eight set records of 528 bytes; 4224 eight owner bytes (0 free, 1 daily, 2 reprocessing; 3 to
 * 255 is nobody's, and such a slot can be neither claimed nor written nor released nor run from); 4232 eight write counts (u32 each). A new table is 4264
 * zeros. It has no pointer in it, so that it may be copied, kept and sent. Two calls that run at the same time must not be lent the same table, but for runs,
 * which only read it.
 *
 * What a desk's own slot holds is the desk's alone: from its claim until its release, whatever the other desk calls, with whatever answers, the slot keeps its
 * set, owner and count; so neither a run from it nor a refusal of a write there depends on the other desk. Two things do: whether a claim is granted depends on
 * which slots are free, and a run from the other desk's slot on the set that it finds there.
 * The counts only rise, by one for each claim or write that is done, and never wrap. Where a slot has the same count and the same owner as before, its set was
 * not written in between.
 *
 * Each of the three calls that follow answers 0. Refused, it answers the number, and the table is untouched. */

/* Claims a free slot for a desk: its set record becomes zeros, which no run takes before it is written (4), its owner the desk, its count one more.
 * Refused with 11 for the table's length, the desk, the slot or one that is not free, then with 12. */
uint32_t uramsheg_desk_claim(uint8_t *table, size_t table_length, size_t desk, size_t slot);

/* Writes a set record to a slot of the desk's own; its count becomes one more.
 * Refused with 11 for the table's length, the desk, the slot or one that is not the desk's, then with 12, then with 4 for the record. `set` must not overlap
 * the table. */
uint32_t uramsheg_desk_write(uint8_t *table, size_t table_length, size_t desk, size_t slot, const uint8_t *set, size_t set_length);

/* Gives a slot of the desk's own back: its owner becomes 0; its set and its count stay.
 * Refused with 11 for the table's length, the desk, the slot or one that is not the desk's. */
uint32_t uramsheg_desk_release(uint8_t *table, size_t table_length, size_t desk, size_t slot);

/* Lists the spots of four levels as uramsheg_detect does, under the set that stands in a slot at the call. The slot may be either desk's.
 * Refused with 11 for the table's length, the slot or one that neither desk owns, then as uramsheg_detect (1, 2, 3, 8, 4: a slot that was claimed and not yet
 * written is 4); *value is then 0, and `out` is untouched. The table is only read. */
uint32_t uramsheg_desk_run(const uint8_t *table, size_t table_length, size_t slot,
                           float peak_threshold, float sigma_threshold, float curvature_ratio, float window_low, float window_high,
                           size_t rows, size_t cols, size_t octave,
                           const float *level0, size_t level0_length, const float *level1, size_t level1_length,
                           const float *level2, size_t level2_length, const float *level3, size_t level3_length,
                           uint8_t *out, size_t out_length, uint64_t *value);

/* A store: a day's spots in one lent buffer, so that a struck false spot gives its room back.
 *
 * The store: slots of 48 bytes, one after the other, as many as the buffer holds; slot i begins at byte 48 * i. A live slot holds a spot record. A free slot
 * has 255 in byte 38, where a record has its polarity, and 0 in its other 47 bytes. There is nothing else in it, so that it may be copied, kept and sent.
 * uramsheg_store_clear makes a new one of any buffer. Two calls that run at the same time must not be lent the same store.
 *
 * A spot keeps its slot until it is struck or the store is closed up; the records' bytes are kept as they were added. The store is a list of optional spots
 * and no more: after any calls the live records and their slots, and each answer, are those of such a list.
 *
 * Each call but clearing takes the rows and cols of the map that the spots were found on, and first checks the whole store for them (so that its time grows
 * with the number of slots): each slot must be free, or hold a record that is not bad, as in uramsheg_join; 255 in byte 38 with another byte not 0 is bad.
 *
 * Each call answers 0. Refused, it answers the number, and the store is untouched; *value is then 0, but for 5: where the store's length is no multiple of 48
 * it is the number of whole slots, else the index of the first slot that is bad; for the record that is added it is the number of slots. */

/* Frees every slot, whatever stands in the buffer. *value is 0. Refused with 5 where the length is no multiple of 48; nothing else is asked. */
uint32_t uramsheg_store_clear(uint8_t *store, size_t store_length, uint64_t *value);

/* Puts a spot record into the lowest free slot, whose number is *value.
 * Refused with 1, then with 5 for the store's length, 5 for a slot, 5 for the record (bad, or not 48 bytes long), then with 6 where no slot is free: a bad
 * record is 5 in a full store too. `spot` must not overlap the store. */
uint32_t uramsheg_store_add(uint8_t *store, size_t store_length, size_t rows, size_t cols, const uint8_t *spot, size_t spot_length, uint64_t *value);

/* Strikes the spot of a slot: the slot becomes free. *value is 0.
 * Refused with 1, then with 5 for the store's length, 5 for a slot, then with 13 where the slot is free or not one of the store's. */
uint32_t uramsheg_store_strike(uint8_t *store, size_t store_length, size_t rows, size_t cols, size_t slot, uint64_t *value);

/* Closes the store up: the live records move down in the order of their slots, the slots behind them become free, and *value is the number of live ones.
 * The first 48 * *value bytes are then a list that uramsheg_join takes for the same rows and cols, never refused with 5. Closing up a closed store changes
 * nothing. Refused with 1, then with 5 for the store's length, 5 for a slot. */
uint32_t uramsheg_store_close_up(uint8_t *store, size_t store_length, size_t rows, size_t cols, uint64_t *value);

/* Accepting a partner's list: whether `list`, spot records that someone else's detector wrote, is the list that uramsheg_detect gives for the same four levels,
 * set, thresholds and octave, bit for bit. *finding says so, and *value is the index of the first record that differs, 0 where none does.
 *
 * Up to that record the list is the due one, byte for byte. There the order decides first: where the record has a smaller key than the one that is due, or the
 * same key and a smaller polarity, it is extra; where it has a larger one, the due record is absent; with the same key and polarity, any other byte makes it
 * different. Anything behind the last due record is extra; of a list that ends early the due record is absent, at the list's own count.
 *
 * Answers 0. Refused (checked in the order 1, 2, 3, 8, 4, as uramsheg_detect, then 5 for a length that is no multiple of 48, then 5 for a bad record, wherever
 * it stands: a bad record behind the first difference is 5 too), *finding is URAMSHEG_NO_FINDING; *value is then 0, but beside 5 the number of whole records,
 * or the index of the first bad one. Nothing that is lent is written to but *finding and *value, and no room for a list is asked for: the due records are
 * found one after the other as uramsheg_detect finds them, and looked for no further than the first that differs. Like uramsheg_detect it takes at most some
 * 256 KB of stack and no heap. */
uint32_t uramsheg_accept(const uint8_t *set, size_t set_length,
                         float peak_threshold, float sigma_threshold, float curvature_ratio, float window_low, float window_high,
                         size_t rows, size_t cols, size_t octave,
                         const float *level0, size_t level0_length, const float *level1, size_t level1_length,
                         const float *level2, size_t level2_length, const float *level3, size_t level3_length,
                         const uint8_t *list, size_t list_length, uint32_t *finding, uint64_t *value);

/* The corrected sigma of a spot with these centre samples, this sigma and this polarity, in *corrected, and 0 in *cause.
 * Refused (checked in the order 4, 7), it neither reads nor writes *corrected, which may be unset; *cause is 0 beside 4, and beside 7 why the spot has no
 * size: URAMSHEG_NO_SIZE_POLARITY or URAMSHEG_NO_SIZE_RANGE. */
uint32_t uramsheg_correct(const uint8_t *set, size_t set_length, float sample0, float sample1, float sample2, float sample3,
                          float sigma, bool is_max, float *corrected, uint64_t *cause);

/* How many octaves a map of these sides has, by its shortest side: under 10 none; to 64, 1; to 128, 2; to 256, 3; to 512, 4; to 1024, 5; above, 6. */
uint32_t uramsheg_octave_count(size_t rows, size_t cols);

/* Every second pixel of every second column of a level: (r, c) of `out` is (2r, 2c) of `level`. The new sides, half the old rounded down, or 0 by 0
 * where a side is under 2, go to *half_rows and *half_cols; floats of `out` past the result are kept.
 * Refused (checked in the order 1, 2, 6), it leaves `out` untouched, and neither reads nor writes *half_rows and *half_cols, which may be unset. */
uint32_t uramsheg_downsample(size_t rows, size_t cols, const float *level, size_t level_length, float *out, size_t out_length,
                             uint64_t *half_rows, uint64_t *half_cols);

/* Whether a set record is good: 0, or 4. */
uint32_t uramsheg_set_check(const uint8_t *set, size_t set_length);

#ifdef __cplusplus
}
#endif

#endif
