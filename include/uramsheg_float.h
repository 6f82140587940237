/* Uramsheg's float helpers: f32 functions with one fixed answer for every input, proved in Rattle.
 *
 * Link with libfloat_c.a (`tests/staticlib float_c` writes target/staticlib/libfloat_c.a); it needs nothing else.
 * Its code is for x86-64-v2 processors, and does not ask the one that it runs on.
 * Every function takes every float, NaN and the infinities too, and always returns.
 * A NaN answer is some NaN: compare with `isnan`, not by its bits.
 */
#ifndef URAMSHEG_FLOAT_H
#define URAMSHEG_FLOAT_H

#include <stdbool.h>
#include <stdint.h>

#ifdef __cplusplus
extern "C" {
#endif

/* The value without its sign: -0 gives +0, an infinity +infinity, NaN NaN. */
float uramsheg_abs(float x);

/* The smaller, or the larger, of two. One NaN is ignored; of two equal numbers the left is given, so of -0 and +0 the first. */
float uramsheg_min(float a, float b);
float uramsheg_max(float a, float b);

/* low for a value below low, then high for one above high; NaN stays NaN. The bounds may be reversed or NaN: it never stops. */
float uramsheg_clamp(float x, float low, float high);

/* Whether x is neither NaN nor an infinity. */
bool uramsheg_is_finite(float x);

/* The IEEE 754 square root, nearest even. Either zero and +infinity give themselves, NaN and all below 0 give NaN. */
float uramsheg_sqrt(float x);

/* NaN or below 0 gives NaN, either zero -infinity, +infinity itself. Exact on powers of two, from 2^-149 on; for x from 2^e up to 2^(e+1) the
 * answer lies from e to e+1. */
float uramsheg_log2(float x);

/* NaN gives NaN, either zero 1, 89 and above +infinity, -104 and below +0. Never negative. */
float uramsheg_exp(float x);

/* The whole number nearest to x, a half to the larger: 0.5 gives 1, 4.5 gives 5. NaN and all below 0 give 0, all from 2^32 on 4294967295. */
uint32_t uramsheg_nearest(float x);

#ifdef __cplusplus
}
#endif

#endif
