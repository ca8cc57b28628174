/* A fluid is data: its constants, rows, ideal pairs, limits and saturation coefficients. */
#ifndef FLUID_H
#define FLUID_H

#include <stddef.h>
#include <stdint.h>

enum { ROWS = 14, IDEAL_PAIRS = 3, ESTIMATE_TERMS = 5 };

struct range {
    double least, greatest;
};

enum kind { PLAIN, DAMPED, BELL };

/* l belongs to damped rows, eta to epsilon to bells. */
struct row {
    enum kind kind;
    double N, t;
    unsigned d, l;
    double eta, beta, gamma, epsilon;
};

struct ideal_pair {
    double v, u;
};

/* N·θᵗ; the exponent 1 stands for a θ printed without one. */
struct estimate_term {
    double N, t;
};

struct series {
    size_t count;
    struct estimate_term term[ESTIMATE_TERMS];
};

/* Units: K, mol/dm³, Pa, J/(mol K), kg/mol. */
struct fluid {
    const char *name;
    double Tc, rhoc, pc, R, M;
    struct range T, rho, P;
    uint64_t top;
    struct row row[ROWS];
    double a1, a2, c0;
    struct ideal_pair pair[IDEAL_PAIRS];
    struct series saturation_pressure, liquid_density, vapour_density;
};

extern const struct fluid r245ca, r245fa;

/* M-100 numbers the fluids: 0 for R-245ca, 1 for R-245fa. */
enum { FLUIDS = 2 };

/* Room for the list of any fluid's top, and more. */
enum { LIST_ROOM = 4096 };

/* NULL where no fluid has the number. */
const struct fluid *fluid_numbered(uint64_t number);

#endif
