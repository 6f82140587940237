/* A partner's list in C: `accept MAP LIST` says whether LIST is the list that is due for MAP, byte for byte, and where not, at which record and how.
 *
 * MAP is what the list program reads, with sides to 4,096: a set record of 528 bytes; peak threshold, sigma threshold, curvature ratio, window low, window
 * high (f32 each); rows, cols, octave (u32 each); then four levels of rows * cols f32, by columns, all of it little-endian. LIST is spot records of 48 bytes.
 *
 * exit status by finding: 0 accepted, 2 extra, 3 absent, 4 different; 1 where a file can't be read or the call is refused. `./test` builds and runs it. */
#include <errno.h>
#include <inttypes.h>
#include <stdint.h>
#include <stdio.h>
#include <stdlib.h>
#include <string.h>

#include "refusal.h"
#include "spot.h"
#include "uramsheg.h"

enum { SPOT = URAMSHEG_SPOT_BYTES, THRESHOLDS = 132, ROWS = 548, COLS = 552, OCTAVE = 556, LEVELS = 560, KEY = 32, POLARITY = 38 };

typedef struct { uint8_t *bytes; size_t length; } content;

/* A map's sides and octave, and its four levels, one behind the other and each so many floats long. */
typedef struct { size_t rows, cols, octave, pixels; const float *level; } sides;

static int fail(const char *what) {
    fprintf(stderr, "%s\n", what);
    return 1;
}

/* All bytes of a file. One that can't be read ends the program, and the reason is said. */
static content read_all(const char *path) {
    content c = {NULL, 0};
    FILE *file = fopen(path, "rb");
    size_t room = 0, got = 1;
    while (file && got) {
        if (c.length == room) c.bytes = realloc(c.bytes, room = room ? 2 * room : 65536);
        if (!c.bytes) break;
        c.length += got = fread(c.bytes + c.length, 1, room - c.length, file);
    }
    if (!file || !c.bytes || ferror(file)) {
        fprintf(stderr, "%s can't be read: %s\n", path, strerror(errno));
        exit(1);
    }
    fclose(file);
    return c;
}

static uint32_t get_u32(const uint8_t *bytes, int at) {
    return get_u16(bytes, at) + 65536 * get_u16(bytes, at + 2);
}

/* Where a map's levels lie in its file. Whether they are rows * cols long is the call's to say. */
static sides read_sides(const char *path, content map) {
    if (map.length < LEVELS || (map.length - LEVELS) % 16) {
        fprintf(stderr, "%s is %zu bytes long: give a map's file, %d bytes and four levels of equal lengths, 4 bytes a pixel\n", path, map.length, LEVELS);
        exit(1);
    }
    return (sides){get_u32(map.bytes, ROWS), get_u32(map.bytes, COLS), get_u32(map.bytes, OCTAVE), (map.length - LEVELS) / 16,
                   (const float *)(map.bytes + LEVELS)}; /* the floats are little-endian, as this machine is */
}

static uint32_t accept(content map, sides m, content list, uint32_t *finding, uint64_t *value) {
    return uramsheg_accept(map.bytes, URAMSHEG_SET_BYTES, get(map.bytes, THRESHOLDS), get(map.bytes, THRESHOLDS + 1), get(map.bytes, THRESHOLDS + 2),
                           get(map.bytes, THRESHOLDS + 3), get(map.bytes, THRESHOLDS + 4), m.rows, m.cols, m.octave, m.level, m.pixels,
                           m.level + m.pixels, m.pixels, m.level + 2 * m.pixels, m.pixels, m.level + 3 * m.pixels, m.pixels,
                           list.bytes, list.length, finding, value);
}

/* The first records that are due, as many as fit in `out`. */
static uint32_t detect(content map, sides m, content out, uint64_t *found) {
    return uramsheg_detect(map.bytes, URAMSHEG_SET_BYTES, get(map.bytes, THRESHOLDS), get(map.bytes, THRESHOLDS + 1), get(map.bytes, THRESHOLDS + 2),
                           get(map.bytes, THRESHOLDS + 3), get(map.bytes, THRESHOLDS + 4), m.rows, m.cols, m.octave, m.level, m.pixels,
                           m.level + m.pixels, m.pixels, m.level + 2 * m.pixels, m.pixels, m.level + 3 * m.pixels, m.pixels,
                           out.bytes, out.length, found);
}

/* Prints a record; nine digits tell any two floats apart. */
static void print_spot(const char *whose, const uint8_t *spot, size_t cols) {
    uint32_t key = get_u32(spot, KEY);
    printf("  %s: a %s at pixel (%zu, %zu), x %.9g, y %.9g, sigma %.9g, peak %.9g\n", whose, spot[POLARITY] ? "maximum" : "minimum", key / cols, key % cols,
           get(spot, 0), get(spot, 1), get(spot, 2), get(spot, 3));
}

/* Says why the call was refused. Beside 5 the value tells which record is bad, or how many are whole. */
static int say_refused(uint32_t refused, content list, uint64_t value) {
    if (refused != URAMSHEG_REFUSED_RECORDS) return refuse(refused);
    if (list.length % SPOT)
        fprintf(stderr, "refused %" PRIu32 ": the list is %zu bytes long, which is %" PRIu64 " records of %d bytes and %zu bytes more: give whole records\n",
                refused, list.length, value, SPOT, list.length % SPOT);
    else
        fprintf(stderr, "refused %" PRIu32 ": record %" PRIu64 " is bad for this map: give the list that was found on it\n", refused, value);
    return 1;
}

/* Prints what stands in the list at the index, and what is due there; of a record that is different, which byte is the first. */
static void print_both(content map, sides m, content list, uint32_t finding, uint64_t index) {
    size_t at = SPOT * index;
    content due = {malloc(at + SPOT), at + SPOT};
    uint64_t found = 0;
    if (!due.bytes || detect(map, m, due, &found)) {
        fprintf(stderr, "what is due there can't be shown: there is no memory for the records to it\n");
        return;
    }
    if (at < list.length)
        print_spot("given", list.bytes + at, m.cols);
    else
        printf("  given: nothing, the list ends\n");
    if (index < found)
        print_spot("due", due.bytes + at, m.cols);
    else
        printf("  due: nothing more\n");
    for (size_t i = 0; finding == URAMSHEG_LIST_DIFFERENT && i < SPOT; i++)
        if (list.bytes[at + i] != due.bytes[at + i]) {
            printf("  byte %zu is the first that differs\n", i);
            break;
        }
    free(due.bytes);
}

int main(int count, char **words) {
    static const char *const said[] = {[URAMSHEG_LIST_EXTRA] = "is extra: no such record is due at its place in the order",
                                       [URAMSHEG_LIST_ABSENT] = "is absent: the one that is due there is missing",
                                       [URAMSHEG_LIST_DIFFERENT] = "is different: its key and polarity are due, and some other byte is not"};
    if (count != 3) return fail("use: accept MAP LIST");
    content map = read_all(words[1]), list = read_all(words[2]);
    sides m = read_sides(words[1], map);
    uint32_t finding;
    uint64_t value;
    uint32_t refused = accept(map, m, list, &finding, &value);
    if (refused) return say_refused(refused, list, value);
    if (finding == URAMSHEG_LIST_ACCEPTED) {
        printf("accepted: the list is the one that is due, byte for byte; records: %zu\n", list.length / SPOT);
        return 0;
    }
    printf("record %" PRIu64 " %s\n", value, said[finding]);
    print_both(map, m, list, finding, value);
    return (int)finding;
}
