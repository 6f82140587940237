/* From C: levels, each refusal in its order, what is kept, how far a lost pixel reaches; the correction, why a size is missing. Says what failed. */
#include <math.h>
#include <stdint.h>
#include <stdlib.h>
#include <string.h>

#include "expect.h"
#include "uramsheg.h"

static float *filled(size_t length, float x) {
    float *all = malloc((length ? length : 1) * sizeof *all);
    if (!all) exit(2);
    for (size_t i = 0; i < length; i++) all[i] = x;
    return all;
}

typedef struct { uint32_t answer; float *level[4]; } made;

/* A call with buffers of these lengths, each filled before it. */
static made make(const uint8_t *set, size_t set_length, size_t rows, size_t cols, size_t octave, const float *raw, size_t raw_length, const size_t lengths[4]) {
    made m;
    for (int k = 0; k < 4; k++) m.level[k] = filled(lengths[k], kept);
    m.answer = uramsheg_levels(set, set_length, rows, cols, octave, raw, raw_length, m.level[0], lengths[0], m.level[1], lengths[1],
                               m.level[2], lengths[2], m.level[3], lengths[3]);
    return m;
}

static void drop(made m) {
    for (int k = 0; k < 4; k++) free(m.level[k]);
}

/* What is wrong with a call: any of a side, the raw map's length, the octave, the set, one of the four levels' lengths (1 to 4). */
typedef struct { size_t rows, cols, off, octave; int set, level; } wrong;

static bool refused_first(wrong w) {
    static const float sigmas[4] = {1, 2, 3, 4}, falling[4] = {1, 2, 2, 4};
    uint8_t set[URAMSHEG_SET_BYTES];
    size_t pixels = w.rows * w.cols, lengths[4] = {pixels, pixels, pixels, pixels};
    if (w.level) lengths[w.level - 1]--;
    set_of(set, w.set == 2 ? falling : sigmas);
    float *raw = filled(pixels + w.off, 1);
    made m = make(set, sizeof set - (w.set == 1), w.rows, w.cols, w.octave, raw, pixels + w.off, lengths);
    uint32_t due = w.rows > 4096 || w.cols > 4096 ? 1 : w.off ? 2 : w.octave > 5 ? 3 : w.set ? 4 : w.level ? 6 : 0;
    bool holds = m.answer == due;
    for (int k = 0; k < 4 && due; k++) holds = holds && all_are(m.level[k], 0, lengths[k], kept);
    drop(m);
    free(raw);
    return holds;
}

/* Every choice of things that are wrong: the first in the order 1, 2, 3, 4, 6 is answered, and nothing is written. */
static void refusals(void) {
    static const size_t sides[3][2] = {{5, 7}, {4097, 3}, {2, 4097}};
    static const size_t octaves[3] = {5, 6, SIZE_MAX};
    bool holds = true;
    for (int side = 0; side < 3; side++)
        for (size_t off = 0; off < 2; off++)
            for (int octave = 0; octave < 3; octave++)
                for (int set = 0; set < 3; set++)
                    for (int level = 0; level < 5; level++)
                        holds = holds && refused_first((wrong){sides[side][0], sides[side][1], off, octaves[octave], set, level});
    expect("levels: the first refusal is answered, and it writes nothing", holds);
}

/* Which pixels of level k of a map of rows by cols with one pixel lost are at most radius off it: exactly those are not finite, the others as before. */
static bool reaches(const uint8_t *set, size_t octave, size_t row, size_t col, float lost, const size_t radii[4]) {
    enum { ROWS = 40, COLS = 37, PIXELS = ROWS * COLS };
    static const size_t lengths[4] = {PIXELS, PIXELS, PIXELS, PIXELS};
    float raw[PIXELS];
    for (size_t i = 0; i < PIXELS; i++) raw[i] = (float)(i * 7919 % 1000) / 8 - 60;
    made before = make(set, URAMSHEG_SET_BYTES, ROWS, COLS, octave, raw, PIXELS, lengths);
    raw[col * ROWS + row] = lost;
    made after = make(set, URAMSHEG_SET_BYTES, ROWS, COLS, octave, raw, PIXELS, lengths);
    bool holds = before.answer == 0 && after.answer == 0;
    for (int k = 0; k < 4; k++)
        for (size_t i = 0; i < PIXELS; i++) {
            size_t r = i % ROWS, c = i / ROWS, radius = radii[k];
            bool near = r <= row + radius && row <= r + radius && c <= col + radius && col <= c + radius;
            float was = before.level[k][i], is = after.level[k][i];
            holds = holds && isfinite(was) && (near ? !isfinite(is) : memcmp(&was, &is, sizeof is) == 0);
        }
    drop(before);
    drop(after);
    return holds;
}

/* A spot of the samples b, c, 0, 0, and what its correction answers. */
typedef struct { float b, c, sigma; bool is_max; uint32_t number; uint64_t cause; } spot;

/* Whether the correction of each spot answers its number and its cause, and writes *corrected exactly where it gives a size. */
static bool corrects(const uint8_t *set, size_t set_length, size_t count, const spot *spots) {
    bool holds = true;
    for (const spot *s = spots; s < spots + count; s++) {
        float corrected = kept;
        uint64_t cause = 77;
        uint32_t number = uramsheg_correct(set, set_length, s->b, s->c, 0, 0, s->sigma, s->is_max, &corrected, &cause);
        holds = holds && number == s->number && cause == s->cause && all_are(&corrected, 0, 1, kept) == (number != 0);
    }
    return holds;
}

static void corrections(void) {
    static const spot sized[] = {{-1, 4, 2, true, 0, 0}, {-1, 4, 16, true, 0, 0}};
    static const spot refused[] = {{-1, 4, 2, true, 4, 0}, {-1, 4, 2, false, 4, 0}, {-1, 12, 16, true, 4, 0}};
    /* of the other polarity, and beyond the range too; too weak; not finite */
    static const spot first[] = {{-1, 4, 2, false, 7, 1}, {-1, 12, 16, false, 7, 1}, {-0.25f, 4, 2, true, 7, 1}, {-1, 4, NAN, true, 7, 1}, {-1, INFINITY, 2, true, 7, 1}};
    static const spot second[] = {{-1, 12, 16, true, 7, 2}, {-1, 4, 64, true, 7, 2}};
    static const spot none_of_infinity = {1e-45f, -3e38f, 2, false, 7, 2};
    uint8_t set[URAMSHEG_SET_BYTES], still[URAMSHEG_SET_BYTES], bad[URAMSHEG_SET_BYTES];
    set_t(set);
    set_t(still);
    set_t(bad);
    for (int i = 0; i < 3; i++) put(still, (int[]){119, 124, 125}[i], 0); /* curvature epsilon, blend beta and boost */
    bad[527] = 1;
    expect("correction: a size with cause 0", corrects(set, sizeof set, 2, sized));
    expect("correction: 4 with cause 0, no size written", corrects(bad, sizeof bad, 3, refused) && corrects(set, sizeof set - 1, 3, refused));
    expect("correction: 7 with cause 1, no size written", corrects(set, sizeof set, 5, first));
    expect("correction: 7 with cause 2, no size written", corrects(set, sizeof set, 2, second) && corrects(still, sizeof still, 1, &none_of_infinity));
    expect("correction: the causes are the header's", URAMSHEG_NO_SIZE_POLARITY == 1 && URAMSHEG_NO_SIZE_RANGE == 2);
}

int main(void) {
    static const float sigmas[4] = {1, 2, 3, 4}, wide[4] = {1, 5, 5.25f, 1e20f};
    static const size_t radii[4] = {3, 6, 9, 12}, later[4] = {1, 4, 8, 12}, most[4] = {3, 15, 16, 16};
    static const size_t none[4] = {0, 0, 0, 0}, one[4] = {1, 1, 1, 1}, longer[4] = {35, 36, 40, 99}, exact[4] = {35, 35, 35, 35};
    uint8_t set[URAMSHEG_SET_BYTES], broad[URAMSHEG_SET_BYTES];
    float raw[35], zero = -0.0f;
    set_of(set, sigmas);
    set_of(broad, wide);
    for (int i = 0; i < 35; i++) raw[i] = (float)(i * i % 17);

    refusals();
    corrections();

    made a = make(set, sizeof set, 5, 7, 0, raw, 35, exact), b = make(set, sizeof set, 5, 7, 0, raw, 35, longer);
    bool holds = a.answer == 0 && b.answer == 0;
    for (int k = 0; k < 4; k++) holds = holds && !memcmp(a.level[k], b.level[k], sizeof raw) && all_are(b.level[k], 35, longer[k], kept);
    expect("levels: a longer buffer is kept past the pixels", holds);
    drop(a);
    drop(b);

    holds = true;
    for (size_t octave = 0; octave < 6; octave++) {
        a = make(set, sizeof set, 1, 1, octave, &zero, 1, one);
        for (int k = 0; k < 4; k++) holds = holds && a.answer == 0 && all_are(a.level[k], 0, 1, zero);
        drop(a);
    }
    expect("levels: a map of one pixel, -0, stays -0", holds);

    a = make(set, sizeof set, 0, 4096, 0, raw, 0, none);
    b = make(set, sizeof set, 4096, 0, 0, raw, 0, one);
    holds = a.answer == 0 && b.answer == 0;
    for (int k = 0; k < 4; k++) holds = holds && all_are(b.level[k], 0, 1, kept);
    expect("levels: an empty map is taken, and nothing is written", holds);
    drop(a);
    drop(b);

    holds = true;
    for (size_t place = 0; place < 4; place++) {
        size_t row = (size_t[]){0, 20, 39, 3}[place], col = (size_t[]){0, 18, 36, 36}[place];
        for (int kind = 0; kind < 3; kind++) {
            float lost = (float[]){NAN, INFINITY, -INFINITY}[kind];
            holds = holds && reaches(set, 0, row, col, lost, radii) && reaches(set, 5, row, col, lost, later) && reaches(broad, 0, row, col, lost, most);
        }
    }
    expect("levels: a lost pixel reaches its radius and no further", holds);

    return failures != 0;
}
