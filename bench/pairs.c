/* Saturation pairs in C, in the package's form: the two estimates, the states of a pair at a kept temperature, the judge's tests
 * and the rounds. I0 is worked anew for each state, as in the package. */
#include "put.h"
#include "same_form.c"

enum { MOST_ROUNDS = 40, PAIR_BYTES = 16 };

uint32_t NAMED(saturation)(uint32_t number, double T, uint8_t *out, size_t out_len);
uint32_t NAMED(accept)(uint32_t number, double T, double liquid, double vapour);

struct densities {
    double liquid, vapour;
};

/* ---- the estimates */

/* ln theta is handed over, so that a curve works it once; at the critical temperature it is a NaN, and the power 0. */
static double term_value(const struct term *term, double theta, double ln_theta) {
    if (term->t == 1.0)
        return term->N * theta;
    return term->N * (theta == 0.0 ? 0.0 : exp_of(term->t * ln_theta));
}

static double continued(double sum, const struct series *series, size_t from, double theta, double ln_theta) {
    for (size_t k = from; k < series->count; k++)
        sum = sum + term_value(&series->term[k], theta, ln_theta);
    return sum;
}

static double liquid_estimate(const struct fluid *fluid, double T) {
    double theta = 1.0 - T / fluid->Tc, ln_theta = ln_of(theta);
    return finite_or_nan(fluid->rhoc * continued(1.0, &fluid->liquid, 0, theta, ln_theta));
}

static double vapour_estimate(const struct fluid *fluid, double T) {
    double theta = 1.0 - T / fluid->Tc, ln_theta = ln_of(theta);
    double first = term_value(&fluid->vapour.term[0], theta, ln_theta);
    return finite_or_nan(fluid->rhoc * exp_of(continued(first, &fluid->vapour, 1, theta, ln_theta)));
}

/* ---- two states */

/* The pressure, 1 + I0 + S0 + S1, and Q. */
struct phase {
    double p, g, Q;
};

struct compared {
    struct phase liquid, vapour;
    double dp, dg;
};

static struct phase phase_at(const struct kept *kept, double rho) {
    const struct fluid *fluid = kept->fluid;
    double delta = rho / fluid->rhoc;
    struct state s = {fluid, kept->T, rho, kept->tau, kept->ln_tau, delta, sums_at(kept, delta)};
    return (struct phase){state_pressure(&s), finite_or_nan(1.0 + ideal_0(&s) + s.sums.s0 + s.sums.s1),
                          finite_or_nan(1.0 + 2.0 * s.sums.s1 + s.sums.s2)};
}

static struct compared compare(const struct kept *kept, struct densities pair) {
    struct phase liquid = phase_at(kept, pair.liquid), vapour = phase_at(kept, pair.vapour);
    return (struct compared){liquid, vapour, finite_or_nan(liquid.p - vapour.p), finite_or_nan(liquid.g - vapour.g)};
}

/* ---- the judge */

static uint32_t pair_code(const struct fluid *fluid, double T, struct densities pair) {
    if (!isfinite(T) || !isfinite(pair.liquid) || !isfinite(pair.vapour))
        return 2;
    if (!in_range(&fluid->T, T))
        return 3;
    return in_range(&fluid->rho, pair.liquid) && in_range(&fluid->rho, pair.vapour) ? 0 : 4;
}

static int ordered(const struct fluid *fluid, double T, struct densities pair) {
    return T < fluid->Tc && 0.0 < pair.vapour && pair.vapour < fluid->rhoc && fluid->rhoc < pair.liquid;
}

static int phase_finite(const struct phase *phase) {
    return isfinite(phase->p) && isfinite(phase->g) && isfinite(phase->Q);
}

static int all_finite(const struct compared *c) {
    return phase_finite(&c->liquid) && phase_finite(&c->vapour) && isfinite(c->dp) && isfinite(c->dg);
}

static int near(double bound, double apart) {
    return -bound <= apart && apart <= bound;
}

static int meets(const struct compared *c) {
    return 0.0 < c->liquid.Q && 0.0 < c->vapour.Q && near(0.01, c->dp) && near(1e-9, c->dg);
}

static uint32_t verdict(const struct fluid *fluid, double T, struct densities pair) {
    struct kept kept;
    keep(&kept, fluid, T);
    struct compared c = compare(&kept, pair);
    if (!all_finite(&c))
        return 12;
    return meets(&c) ? 0 : 19;
}

uint32_t NAMED(accept)(uint32_t number, double T, double liquid, double vapour) {
    const struct fluid *fluid = fluid_numbered(number);
    struct densities pair = {liquid, vapour};
    if (!fluid)
        return 17;
    uint32_t code = pair_code(fluid, T, pair);
    if (code != 0)
        return code;
    return ordered(fluid, T, pair) ? verdict(fluid, T, pair) : 19;
}

/* ---- the proposer */

static struct densities next_pair(const struct kept *kept, struct densities pair, const struct compared *c) {
    double l = pair.liquid, v = pair.vapour;
    double D = over(c->dp, (1000.0 * kept->fluid->R) * kept->T);
    double y = over(D / l - c->dg, 1.0 / l - 1.0 / v);
    double x = y - D;
    return (struct densities){finite_or_nan(l + x / c->liquid.Q), finite_or_nan(v + y / c->vapour.Q)};
}

/* The first pair that is accepted, of this one and those of the rounds; each state is worked once, for the judgement and for the
 * round. */
static uint32_t first_accepted(const struct fluid *fluid, double T, struct densities pair, uint8_t *out) {
    struct kept kept;
    keep(&kept, fluid, T);
    for (int k = 0; k <= MOST_ROUNDS; k++) {
        if (pair_code(fluid, T, pair) != 0)
            return 20;
        struct compared c = compare(&kept, pair);
        if (!all_finite(&c))
            return 20;
        if (ordered(fluid, T, pair) && meets(&c)) {
            put_number(out, pair.liquid);
            return put_number(out + 8, pair.vapour);
        }
        pair = next_pair(&kept, pair, &c);
    }
    return 20;
}

uint32_t NAMED(saturation)(uint32_t number, double T, uint8_t *out, size_t out_len) {
    const struct fluid *fluid = fluid_numbered(number);
    if (!fluid)
        return 17;
    if (!isfinite(T))
        return 2;
    if (!in_range(&fluid->T, T))
        return 3;
    if (out_len < PAIR_BYTES)
        return 7;
    if (T > fluid->Tc)
        return 13;
    struct densities pair = {liquid_estimate(fluid, T), vapour_estimate(fluid, T)};
    if (isnan(pair.liquid) || isnan(pair.vapour))
        return 12;
    return first_accepted(fluid, T, pair, out);
}
