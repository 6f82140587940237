/* A raw map from text, for the examples: a line is a row, its numbers parted by commas; nan is a lost pixel. */
#include <stdio.h>

enum { MOST = 1 << 16 };

/* The map's pixels by columns, at most MOST of them, and its sides: 0 by 0 where its lines are not all of one length, or are too many. */
static void read_map(FILE *file, float *raw, size_t *rows, size_t *cols) {
    static float lines[MOST];
    size_t count = 0;
    int after = 0;
    *rows = *cols = 0;
    while (count < MOST && fscanf(file, "%f", &lines[count]) == 1) {
        count++;
        after = fgetc(file);
        if (after == ',') continue;
        if (++*rows == 1) *cols = count;
        if (count != *rows * *cols) break;
    }
    if (!feof(file) || count != *rows * *cols) *rows = *cols = 0;
    for (size_t row = 0; row < *rows; row++)
        for (size_t col = 0; col < *cols; col++) raw[col * *rows + row] = lines[row * *cols + col];
}
