/* The steps of exp, ln and root in C, one rounding per operation, in the order in which they are specified. */
#ifndef STEPS_H
#define STEPS_H

#include <math.h>
#include <stdint.h>
#include <string.h>

static inline double finite_or_nan(double x) {
    return isfinite(x) ? x : NAN;
}

static inline double exp_of(double x) {
    if (!(-700.0 <= x && x <= 700.0))
        return NAN;
    double y = x * 0x1p-10;
    double h = 1.0;
    for (int n = 16; n >= 1; n--)
        h = 1.0 + (y * h) / n;
    for (int k = 0; k < 10; k++)
        h = h * h;
    return finite_or_nan(h);
}

enum { LANES = 7 };

/* exp of each of seven numbers, in place: each step for all seven before the next. */
static inline void seven_exps(double x[LANES]) {
    double h[LANES];
    for (int i = 0; i < LANES; i++) {
        x[i] = -700.0 <= x[i] && x[i] <= 700.0 ? x[i] * 0x1p-10 : NAN;
        h[i] = 1.0;
    }
    for (int n = 16; n >= 1; n--)
        for (int i = 0; i < LANES; i++)
            h[i] = 1.0 + (x[i] * h[i]) / n;
    for (int k = 0; k < 10; k++)
        for (int i = 0; i < LANES; i++)
            h[i] = h[i] * h[i];
    for (int i = 0; i < LANES; i++)
        x[i] = finite_or_nan(h[i]);
}

/* x = m * 2^e with 0.75 <= m < 1.5. */
struct parts {
    double m;
    double e;
};

/* Read off the bits: below 1.5 the digits stand under the exponent of 1, from 1.5 on under that of 1/2. */
static inline struct parts split(double x) {
    uint64_t bits;
    memcpy(&bits, &x, sizeof bits);
    uint64_t digits = bits & ((UINT64_C(1) << 52) - 1);
    int64_t field = (int64_t)(bits >> 52 & 2047);
    int64_t under = digits < UINT64_C(1) << 51 ? 1023 : 1022;
    uint64_t pattern = (uint64_t)under << 52 | digits;
    struct parts p = {.e = (double)(field - under)};
    memcpy(&p.m, &pattern, sizeof p.m);
    return p;
}

static inline double ln_of(double x) {
    if (!(0x1p-60 <= x && x <= 0x1p60))
        return NAN;
    struct parts p = split(x);
    double z = (p.m - 1.0) / (p.m + 1.0);
    double s = z * z;
    double h = 1.0 / 21.0;
    for (int n = 19; n >= 1; n -= 2)
        h = 1.0 / n + s * h;
    return finite_or_nan((2.0 * z) * h + p.e * 0.6931471805599453);
}

static inline double root_of(double x) {
    if (!(1.0 <= x && x <= 1e8))
        return NAN;
    double y = 256.0;
    for (int k = 0; k < 16; k++)
        y = (y + x / y) / 2.0;
    return finite_or_nan(y);
}

#endif
