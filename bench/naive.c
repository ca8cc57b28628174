/* The equation as it is printed: each row works its own power and its own X, for each state anew. Only ln tau is worked
 * once a state. */
#include <stddef.h>

#include "equation.h"

static double X_of(const struct row *row, double delta, double tau) {
    switch (row->kind) {
    case PLAIN:
        return 1.0;
    case DAMPED:
        return exp_of(-whole_power(delta, row->l));
    default:
        return exp_of(-row->eta * (delta - row->epsilon) * (delta - row->epsilon) -
                      row->beta * (tau - row->gamma) * (tau - row->gamma));
    }
}

static struct state state_at(const struct fluid *fluid, double T, double rho) {
    struct state s = {.fluid = fluid, .T = T, .rho = rho, .tau = fluid->Tc / T, .delta = rho / fluid->rhoc};
    s.ln_tau = ln_of(s.tau);
    for (int k = 0; k < ROWS; k++) {
        const struct row *row = &fluid->rows[k];
        double power = exp_of(row->t * s.ln_tau);
        s.sums = row_added(s.sums, row, s.delta, s.tau, power, X_of(row, s.delta, s.tau));
    }
    return s;
}

static double isotherm_total(const struct fluid *fluid, double T, const double *densities, size_t count) {
    double total = 0.0;
    for (size_t i = 0; i < count; i++) {
        struct state s = state_at(fluid, T, densities[i]);
        total += state_pressure(&s);
    }
    return total;
}

#include "doors.h"
