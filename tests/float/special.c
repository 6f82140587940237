/* Calls each float helper from C at its special values and says what it gave. */
#include <inttypes.h>
#include <math.h>
#include <stdint.h>
#include <stdio.h>
#include <string.h>

#include "uramsheg_float.h"

static int failures = 0;

static uint32_t bits(float x) {
    uint32_t b;
    memcpy(&b, &x, sizeof b);
    return b;
}

static float of_bits(uint32_t b) {
    float x;
    memcpy(&x, &b, sizeof x);
    return x;
}

/* any NaN equals any NaN; every other answer is compared bit for bit */
static void expect(const char *name, float got, float want) {
    if (isnan(got) ? isnan(want) : bits(got) == bits(want)) {
        printf("ok C %s\n", name);
    } else {
        printf("FAILED C %s: got %08" PRIx32 ", want %08" PRIx32 "\n", name, bits(got), bits(want));
        failures++;
    }
}

static void expect_whole(const char *name, uint32_t got, uint32_t want) {
    if (got == want) {
        printf("ok C %s\n", name);
    } else {
        printf("FAILED C %s: got %" PRIu32 ", want %" PRIu32 "\n", name, got, want);
        failures++;
    }
}

static void nearest(void) {
    expect_whole("nearest 0", uramsheg_nearest(0.0f), 0);
    expect_whole("nearest -0", uramsheg_nearest(-0.0f), 0);
    expect_whole("nearest just below 0.5", uramsheg_nearest(of_bits(0x3effffff)), 0);
    expect_whole("nearest 0.5", uramsheg_nearest(0.5f), 1);
    expect_whole("nearest 4.5", uramsheg_nearest(4.5f), 5);
    expect_whole("nearest 5.5", uramsheg_nearest(5.5f), 6);
    expect_whole("nearest just below 4094.5", uramsheg_nearest(nextafterf(4094.5f, 0)), 4094);
    expect_whole("nearest -1", uramsheg_nearest(-1.0f), 0);
    expect_whole("nearest the last below 2^32", uramsheg_nearest(4294967040.0f), 4294967040u);
    expect_whole("nearest 2^32", uramsheg_nearest(4294967296.0f), UINT32_MAX);
    expect_whole("nearest infinity", uramsheg_nearest(INFINITY), UINT32_MAX);
    expect_whole("nearest -infinity", uramsheg_nearest(-INFINITY), 0);
    expect_whole("nearest NaN", uramsheg_nearest(NAN), 0);
}

int main(void) {
    const float inf = INFINITY, tiny = of_bits(1), most = of_bits(0x7f7fffff);

    expect("abs -0", uramsheg_abs(-0.0f), 0.0f);
    expect("abs -1.5", uramsheg_abs(-1.5f), 1.5f);
    expect("abs -infinity", uramsheg_abs(-inf), inf);
    expect("abs NaN", uramsheg_abs(NAN), NAN);
    expect("min NaN 2", uramsheg_min(NAN, 2.0f), 2.0f);
    expect("min 2 NaN", uramsheg_min(2.0f, NAN), 2.0f);
    expect("min +0 -0", uramsheg_min(0.0f, -0.0f), 0.0f);
    expect("min -0 +0", uramsheg_min(-0.0f, 0.0f), -0.0f);
    expect("max NaN NaN", uramsheg_max(NAN, NAN), NAN);
    expect("max 1 2", uramsheg_max(1.0f, 2.0f), 2.0f);
    expect("max +0 -0", uramsheg_max(0.0f, -0.0f), 0.0f);
    expect("max -0 +0", uramsheg_max(-0.0f, 0.0f), -0.0f);
    expect("clamp 3 to 1..2", uramsheg_clamp(3.0f, 1.0f, 2.0f), 2.0f);
    expect("clamp 0 to 1..2", uramsheg_clamp(0.0f, 1.0f, 2.0f), 1.0f);
    expect("clamp 1.5 to 2..1", uramsheg_clamp(1.5f, 2.0f, 1.0f), 2.0f);
    expect("clamp 3 to 2..1", uramsheg_clamp(3.0f, 2.0f, 1.0f), 1.0f);
    expect("clamp 3 to NaN..NaN", uramsheg_clamp(3.0f, NAN, NAN), 3.0f);
    expect("clamp NaN to 1..2", uramsheg_clamp(NAN, 1.0f, 2.0f), NAN);
    expect("is_finite 1", uramsheg_is_finite(1.0f), 1.0f);
    expect("is_finite the largest", uramsheg_is_finite(most), 1.0f);
    expect("is_finite infinity", uramsheg_is_finite(inf), 0.0f);
    expect("is_finite -infinity", uramsheg_is_finite(-inf), 0.0f);
    expect("is_finite NaN", uramsheg_is_finite(NAN), 0.0f);
    expect("sqrt 2.25", uramsheg_sqrt(2.25f), 1.5f);
    expect("sqrt 2^-148", uramsheg_sqrt(ldexpf(1.0f, -148)), ldexpf(1.0f, -74));
    expect("sqrt -0", uramsheg_sqrt(-0.0f), -0.0f);
    expect("sqrt infinity", uramsheg_sqrt(inf), inf);
    expect("sqrt -1", uramsheg_sqrt(-1.0f), NAN);
    expect("sqrt NaN", uramsheg_sqrt(NAN), NAN);
    expect("sqrt the smallest", uramsheg_sqrt(tiny), of_bits(0x1a3504f3));
    expect("log2 8", uramsheg_log2(8.0f), 3.0f);
    expect("log2 2^-149", uramsheg_log2(tiny), -149.0f);
    expect("log2 0", uramsheg_log2(0.0f), -inf);
    expect("log2 -0", uramsheg_log2(-0.0f), -inf);
    expect("log2 infinity", uramsheg_log2(inf), inf);
    expect("log2 -1", uramsheg_log2(-1.0f), NAN);
    expect("log2 NaN", uramsheg_log2(NAN), NAN);
    expect("exp 0", uramsheg_exp(0.0f), 1.0f);
    expect("exp -0", uramsheg_exp(-0.0f), 1.0f);
    expect("exp 89", uramsheg_exp(89.0f), inf);
    expect("exp -104", uramsheg_exp(-104.0f), 0.0f);
    expect("exp infinity", uramsheg_exp(inf), inf);
    expect("exp -infinity", uramsheg_exp(-inf), 0.0f);
    expect("exp NaN", uramsheg_exp(NAN), NAN);
    nearest();
    return failures != 0;
}
