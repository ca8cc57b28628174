/* The fluids as data; a candidate is told the number of one when it is called, as the package is. digits.h has the digits, and
 * bench/digits writes it. Units: K, mol/dm3, Pa, J/(mol K), kg/mol. */
#ifndef FLUIDS_H
#define FLUIDS_H

#include <stddef.h>
#include <stdint.h>

enum { ROWS = 14, PAIRS = 3, TERMS = 5 };

enum kind { PLAIN, DAMPED, BELL };

/* l belongs to damped rows, eta to epsilon to bells. */
struct row {
    enum kind kind;
    double N, t;
    int d, l;
    double eta, beta, gamma, epsilon;
};

struct pair {
    double v, u;
};

/* Of a saturation estimate: N times theta to the power t; t is 1 where theta stands alone. */
struct term {
    double N, t;
};

struct series {
    size_t count;
    struct term term[TERMS];
};

struct range {
    double least, greatest;
};

struct fluid {
    double Tc, rhoc, R, M, a1, a2, c0;
    struct range T, rho, P;
    size_t top;
    struct pair pairs[PAIRS];
    struct row rows[ROWS];
    struct series liquid, vapour;
};

/* The array `fluids`, in the order of their numbers. */
#include "digits.h"

enum { FLUIDS = sizeof fluids / sizeof *fluids };

/* NULL where no fluid has the number. */
static inline const struct fluid *fluid_numbered(uint32_t number) {
    return number < FLUIDS ? &fluids[number] : NULL;
}

/* A NaN is in no range. */
static inline int in_range(const struct range *range, double x) {
    return range->least <= x && x <= range->greatest;
}

#endif
