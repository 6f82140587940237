/* From C: `accept_files FOLDER` writes the map with dozens of spots as the file that examples/accept.c reads, FOLDER/map, and lists beside it: its own, and one for
 * each way in which a list may be another. */
#include <stdio.h>
#include <stdlib.h>

#include "accept.h"

static const char *folder;

/* Appends to a file of the folder, or begins it. */
static void write_to(const char *name, const char *mode, const void *bytes, size_t length) {
    char path[4096];
    snprintf(path, sizeof path, "%s/%s", folder, name);
    FILE *file = fopen(path, mode);
    if (!file || fwrite(bytes, 1, length, file) != length || fclose(file)) {
        perror(path);
        exit(1);
    }
}

/* Writes so many bytes of the due list, with some bits of one byte turned. */
static void write_list(const char *name, size_t length, size_t at, uint8_t bits) {
    uint8_t list[sizeof due];
    memcpy(list, due, sizeof list);
    list[at] ^= bits;
    write_to(name, "wb", list, length);
}

static void write_map(uint32_t octave) {
    const uint32_t sides[3] = {ROWS, COLS, octave};
    write_to("map", "wb", set, sizeof set);
    write_to("map", "ab", thresholds, sizeof thresholds); /* the floats are little-endian, as this machine is */
    write_to("map", "ab", sides, sizeof sides);
    write_to("map", "ab", level, sizeof level);
}

int main(int count, char **words) {
    make_map();
    if (count != 2 || !is_listed(3)) return 2;
    folder = words[1];
    size_t all = SPOT * due_count;
    write_map(3);
    write_list("own", all, 0, 0);
    write_list("cut", all - SPOT, 0, 0);
    write_list("sample", all, 20 * SPOT + 19, 1);
    write_list("polarity", all, 21 * SPOT + POLARITY, 1);
    write_list("bad", all, 40 * SPOT + 39, 1);
    write_list("odd", all - 7, 0, 0);
    write_list("twice", all, 0, 0);
    write_to("twice", "ab", due, SPOT);
    write_list("left-out", 30 * SPOT, 0, 0);
    write_to("left-out", "ab", due + 31 * SPOT, all - 31 * SPOT);
    return 0;
}
