/* Density from pressure in the package's steps, over c cells: the plain search, the preparation of two lists, and the quick search.
 * Side 0 is from below, any other from above; a refusal is a NaN. Included by a form that has defined `struct kept`, `keep` and
 * `pressure_at` before. */
#include <stdint.h>

#include "named.h"

enum { HALVINGS = 23 };

static double step_density(size_t k) {
    return (double)k * 0x1p-30;
}

static double step_pressure(const struct kept *kept, size_t k) {
    return pressure_at(kept, step_density(k));
}

static double end_pressure(const struct kept *kept, size_t j) {
    return step_pressure(kept, j << HALVINGS);
}

static int permitted_cells(const struct fluid *fluid, size_t c) {
    return 1 <= c && c <= fluid->top;
}

/* Whether there is a fluid, and T, P and c are in its ranges. */
static int permitted_search(const struct fluid *fluid, double T, double P, size_t c) {
    return fluid && in_range(&fluid->T, T) && in_range(&fluid->P, P) && permitted_cells(fluid, c);
}

/* ---- plain */

static double in_cell(const struct kept *kept, double P, size_t cell) {
    size_t lower = cell << HALVINGS, upper = (cell + 1) << HALVINGS;
    for (int halving = 0; halving < HALVINGS; halving++) {
        size_t middle = (lower + upper) / 2;
        double p = step_pressure(kept, middle);
        if (isnan(p))
            return NAN;
        if (p <= P)
            lower = middle;
        else
            upper = middle;
    }
    return upper - lower == 1 ? step_density(lower) : NAN;
}

static double plain_from_below(const struct kept *kept, double P, size_t c) {
    for (size_t j = 1; j <= c; j++) {
        double p = end_pressure(kept, j);
        if (isnan(p))
            return NAN;
        if (p > P)
            return in_cell(kept, P, j - 1);
    }
    return NAN;
}

static double plain_from_above(const struct kept *kept, double P, size_t c) {
    double top = end_pressure(kept, c);
    if (isnan(top) || top <= P)
        return NAN;
    for (size_t j = c; j-- > 0;) {
        double p = end_pressure(kept, j);
        if (isnan(p))
            return NAN;
        if (p <= P)
            return in_cell(kept, P, j);
    }
    return NAN;
}

double NAMED(plain)(uint32_t number, double T, double P, size_t c, uint32_t side);

double NAMED(plain)(uint32_t number, double T, double P, size_t c, uint32_t side) {
    const struct fluid *fluid = fluid_numbered(number);
    if (!permitted_search(fluid, T, P, c))
        return NAN;
    struct kept kept;
    keep(&kept, fluid, T);
    return side == 0 ? plain_from_below(&kept, P, c) : plain_from_above(&kept, P, c);
}

/* ---- preparing */

uint32_t NAMED(prepare)(uint32_t number, double T, size_t c, double *G, size_t places_G, double *L, size_t places_L);

static int filled(const struct kept *kept, size_t c, double *G, double *L) {
    for (size_t j = 0; j <= c; j++) {
        double p = end_pressure(kept, j);
        if (isnan(p))
            return 0;
        G[j] = L[j] = p;
    }
    return 1;
}

uint32_t NAMED(prepare)(uint32_t number, double T, size_t c, double *G, size_t places_G, double *L, size_t places_L) {
    const struct fluid *fluid = fluid_numbered(number);
    if (!fluid)
        return 17;
    if (!isfinite(T))
        return 2;
    if (!in_range(&fluid->T, T))
        return 3;
    if (!permitted_cells(fluid, c))
        return 6;
    if (places_G <= c || places_L <= c)
        return 7;
    struct kept kept;
    keep(&kept, fluid, T);
    if (!filled(&kept, c, G, L)) {
        for (size_t j = 0; j <= c; j++)
            G[j] = L[j] = 0.0;
        return 12;
    }
    for (size_t j = 0; j < c; j++)
        G[j + 1] = G[j] < G[j + 1] ? G[j + 1] : G[j];
    for (size_t j = c; j-- > 0;)
        L[j] = L[j + 1] < L[j] ? L[j + 1] : L[j];
    return 0;
}

/* ---- quick */

double NAMED(quick)(uint32_t number, double T, double P, size_t c, uint32_t side, const double *G, size_t places_G,
                    const double *L, size_t places_L);

static size_t halved_places(const double *list, double P, size_t c) {
    size_t a = 0, b = c;
    while (b - a > 1) {
        size_t middle = (a + b) / 2;
        if (list[middle] > P)
            b = middle;
        else
            a = middle;
    }
    return a;
}

double NAMED(quick)(uint32_t number, double T, double P, size_t c, uint32_t side, const double *G, size_t places_G,
                    const double *L, size_t places_L) {
    const struct fluid *fluid = fluid_numbered(number);
    const double *list = side == 0 ? G : L;
    if (!permitted_search(fluid, T, P, c) || places_G <= c || places_L <= c || !(list[c] > P))
        return NAN;
    struct kept kept;
    keep(&kept, fluid, T);
    size_t a = halved_places(list, P, c);
    double low = end_pressure(&kept, a), high = end_pressure(&kept, a + 1);
    return low <= P && P < high ? in_cell(&kept, P, a) : NAN;
}
