/* The equation in the package's form: what the temperature alone decides is kept, the powers and the exponentials are
 * worked seven at a time, rows 6 and 7 are damped as row 9 is, and one loop sums. */
#include <stddef.h>

#include "equation.h"

struct kept {
    const struct fluid *fluid;
    double T, tau, ln_tau;
    double powers[ROWS], bells[ROWS];
};

static double bell_part(const struct row *row, double tau) {
    return row->kind == BELL ? row->beta * (tau - row->gamma) * (tau - row->gamma) : 0.0;
}

static void keep(struct kept *kept, const struct fluid *fluid, double T) {
    const struct row *rows = fluid->rows;
    kept->fluid = fluid;
    kept->T = T;
    kept->tau = fluid->Tc / T;
    kept->ln_tau = ln_of(kept->tau);
    for (int k = 0; k < ROWS; k++)
        kept->powers[k] = rows[k].t * kept->ln_tau;
    seven_exps(kept->powers);
    seven_exps(kept->powers + LANES);
    for (int k = 0; k < ROWS; k++)
        kept->bells[k] = bell_part(&rows[k], kept->tau);
}

/* Of a row in the second half, where none is plain. */
static inline double X_exponent(const struct row *row, double delta, double bell) {
    if (row->kind == DAMPED)
        return -whole_power(delta, row->l);
    return -row->eta * (delta - row->epsilon) * (delta - row->epsilon) - bell;
}

/* Of a row in the first half, where none is a bell; rows 8 and 9 are the first two of the second. */
static inline double first_X(const struct row *row, const double second[LANES]) {
    return row->kind == PLAIN ? 1.0 : second[row->l == 1 ? 0 : 1];
}

static struct sums sums_at(const struct kept *kept, double delta) {
    const struct row *rows = kept->fluid->rows;
    double X[ROWS];
    double *second = X + LANES;
    for (int k = 0; k < LANES; k++)
        second[k] = X_exponent(&rows[LANES + k], delta, kept->bells[LANES + k]);
    seven_exps(second);
    for (int k = 0; k < LANES; k++)
        X[k] = first_X(&rows[k], second);
    struct sums s = {0.0, 0.0, 0.0, 0.0, 0.0, 0.0};
    for (int k = 0; k < ROWS; k++)
        s = row_added(s, &rows[k], delta, kept->tau, kept->powers[k], X[k]);
    return s;
}

static struct state state_at(const struct fluid *fluid, double T, double rho) {
    struct kept kept;
    keep(&kept, fluid, T);
    double delta = rho / fluid->rhoc;
    return (struct state){fluid, T, rho, kept.tau, kept.ln_tau, delta, sums_at(&kept, delta)};
}

/* The pressure at a kept temperature. */
static double pressure_at(const struct kept *kept, double rho) {
    const struct fluid *fluid = kept->fluid;
    return pressure_of(fluid->R, kept->T, rho, sums_at(kept, rho / fluid->rhoc).s1);
}

static double isotherm_total(const struct fluid *fluid, double T, const double *densities, size_t count) {
    struct kept kept;
    keep(&kept, fluid, T);
    double total = 0.0;
    for (size_t i = 0; i < count; i++)
        total += pressure_at(&kept, densities[i]);
    return total;
}

#include "doors.h"
#include "searches.h"
