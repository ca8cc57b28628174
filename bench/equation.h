/* What the two forms of the equation share: a row's A, q, r, f, g from its power and its X, the six sums, the ideal part,
 * and the properties from the sums. */
#ifndef EQUATION_H
#define EQUATION_H

#include "fluids.h"
#include "steps.h"

struct sums {
    double s0, s1, s2, t1, t2, st;
};

struct state {
    const struct fluid *fluid;
    double T, rho, tau, ln_tau, delta;
    struct sums sums;
};

/* Whether there is a fluid, and T and the density are in its ranges. */
static inline int permitted(const struct fluid *fluid, double T, double rho) {
    return fluid && in_range(&fluid->T, T) && in_range(&fluid->rho, rho);
}

/* A density of minus zero is worked as +0. */
static inline double worked(double rho) {
    return rho == 0.0 ? 0.0 : rho;
}

/* ---- rows and sums */

static inline double whole_power(double x, int n) {
    double p = 1.0;
    for (int k = 0; k < n; k++)
        p = p * x;
    return p;
}

static inline struct sums added(struct sums s, double A, double q, double r, double f, double g) {
    return (struct sums){s.s0 + A,     s.s1 + A * q, s.s2 + A * f,
                         s.t1 + A * r, s.t2 + A * g, s.st + A * q * r};
}

static inline struct sums plain_added(struct sums s, const struct row *row, double A) {
    double q = row->d, t = row->t;
    return added(s, A, q, t, q * q - q, t * t - t);
}

static inline struct sums damped_added(struct sums s, const struct row *row, double A, double delta_l) {
    double l = row->l, t = row->t;
    double q = row->d - l * delta_l;
    return added(s, A, q, t, (q * q - q) - (l * l) * delta_l, t * t - t);
}

static inline struct sums bell_added(struct sums s, const struct row *row, double A, double delta, double tau) {
    double d = row->d, t = row->t, eta = row->eta, beta = row->beta;
    double q = d - 2.0 * eta * delta * (delta - row->epsilon);
    double r = t - 2.0 * beta * tau * (tau - row->gamma);
    return added(s, A, q, r, (q * q - d) - 2.0 * eta * delta * delta, (r * r - t) - 2.0 * beta * tau * tau);
}

/* The sums and one row more, from the row's power and X. */
static inline struct sums row_added(struct sums s, const struct row *row, double delta, double tau, double power,
                                    double X) {
    double A = row->N * whole_power(delta, row->d) * power * X;
    switch (row->kind) {
    case PLAIN:
        return plain_added(s, row, A);
    case DAMPED:
        return damped_added(s, row, A, whole_power(delta, row->l));
    default:
        return bell_added(s, row, A, delta, tau);
    }
}

/* ---- the ideal part */

/* A divisor that is not finite gives no value. */
static inline double over(double dividend, double divisor) {
    return isfinite(divisor) ? dividend / divisor : NAN;
}

static inline double ideal_0(const struct state *s) {
    const struct fluid *fluid = s->fluid;
    double sum = 0.0;
    for (int k = 0; k < PAIRS; k++)
        sum += fluid->pairs[k].v * ln_of(1.0 - exp_of(-(fluid->pairs[k].u / s->T)));
    return fluid->a1 + fluid->a2 * s->tau + ln_of(s->delta) + (fluid->c0 - 1.0) * s->ln_tau + sum;
}

static inline double ideal_1(const struct state *s) {
    const struct fluid *fluid = s->fluid;
    double sum = 0.0;
    for (int k = 0; k < PAIRS; k++) {
        double b = fluid->pairs[k].u / s->T;
        double w = exp_of(b);
        sum += over(fluid->pairs[k].v * b, w - 1.0);
    }
    return fluid->a2 * s->tau + (fluid->c0 - 1.0) + sum;
}

static inline double ideal_2(const struct state *s) {
    const struct fluid *fluid = s->fluid;
    double sum = 0.0;
    for (int k = 0; k < PAIRS; k++) {
        double b = fluid->pairs[k].u / s->T;
        double w = exp_of(b);
        sum += over(fluid->pairs[k].v * b * b * w, (w - 1.0) * (w - 1.0));
    }
    return (fluid->c0 - 1.0) + sum;
}

/* ---- properties */

static inline double pressure_of(double R, double T, double rho, double s1) {
    return finite_or_nan(((rho * 1000.0) * (R * T)) * (1.0 + s1));
}

static inline double state_pressure(const struct state *s) {
    return pressure_of(s->fluid->R, s->T, s->rho, s->sums.s1);
}

static inline double entropy_of(const struct state *s) {
    return finite_or_nan(s->fluid->R * (ideal_1(s) + s->sums.t1 - ideal_0(s) - s->sums.s0));
}

struct stability {
    double V, K, Q;
};

static inline struct stability stability_of(const struct state *s) {
    return (struct stability){ideal_2(s) - s->sums.t2, 1.0 + s->sums.s1 - s->sums.st,
                              1.0 + 2.0 * s->sums.s1 + s->sums.s2};
}

static inline int stable(struct stability by) {
    return isfinite(by.V) && isfinite(by.K) && isfinite(by.Q) && by.Q > 0.0 && by.V > 0.0;
}

static inline double isobaric_of(const struct state *s) {
    struct stability by = stability_of(s);
    return stable(by) ? finite_or_nan(s->fluid->R * (by.V + by.K * by.K / by.Q)) : NAN;
}

static inline double sound_speed_of(const struct state *s) {
    struct stability by = stability_of(s);
    return stable(by) ? root_of((s->fluid->R * s->T) / s->fluid->M * (by.Q + by.K * by.K / by.V)) : NAN;
}

#endif
