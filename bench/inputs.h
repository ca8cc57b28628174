/* What the candidates are asked: inputs drawn in a fluid's ranges, which are timed, and inputs at the ends of its ranges and
 * outside, which are compared alone. The limits are those of the tests' table. */
#ifndef INPUTS_H
#define INPUTS_H

#include <math.h>
#include <stddef.h>
#include <stdint.h>
#include <string.h>

#include "../tests/independent/fluid.h"
#include "candidates.h"

enum { BELOW, ABOVE };

/* Writes one input of a fluid; a function that is of no fluid does not look at it. */
typedef void draw(uint32_t number, double *input);

/* Writes inputs of a fluid, as many as it says. */
typedef int edges(const struct fluid *fluid, double *edge);

enum { WIDEST = 2, MOST_EDGES = 16 };

/* ---- drawn */

/* SplitMix64 from a fixed start: the same inputs in every run. */
static uint64_t state;

static uint64_t next_word(void) {
    uint64_t z = state += UINT64_C(0x9e3779b97f4a7c15);
    z = (z ^ z >> 30) * UINT64_C(0xbf58476d1ce4e5b9);
    z = (z ^ z >> 27) * UINT64_C(0x94d049bb133111eb);
    return z ^ z >> 31;
}

static double uniform(double low, double high) {
    return low + (high - low) * ((double)(next_word() >> 11) * 0x1p-53);
}

static double clamped(double x, double low, double high) {
    return x < low ? low : x > high ? high : x;
}

/* An exponent drawn evenly; clamped, because a power's rounding may step over an end. */
static double log_uniform(double low, double high) {
    return clamped(exp2(uniform(log2(low), log2(high))), low, high);
}

static void draw_exp_near(uint32_t number, double *input) {
    (void)number;
    *input = uniform(-50.0, 50.0);
}

static void draw_exp_far(uint32_t number, double *input) {
    (void)number;
    *input = uniform(-700.0, 700.0);
}

static void draw_ln(uint32_t number, double *input) {
    (void)number;
    *input = log_uniform(0x1p-60, 0x1p60);
}

static void draw_root(uint32_t number, double *input) {
    (void)number;
    *input = log_uniform(1.0, 1e8);
}

static void draw_temperature(uint32_t number, double *input) {
    const struct fluid *fluid = fluid_numbered(number);
    *input = uniform(fluid->T.least, fluid->T.greatest);
}

static void draw_density(uint32_t number, double *input) {
    const struct fluid *fluid = fluid_numbered(number);
    *input = uniform(fluid->rho.least, fluid->rho.greatest);
}

static void draw_pressure(uint32_t number, double *input) {
    const struct fluid *fluid = fluid_numbered(number);
    *input = log_uniform(fluid->P.least, fluid->P.greatest);
}

/* A temperature, and a density below the critical one or above it, with the same chance; drawn again where there is no
 * sound speed. So each function has the same states, vapour and liquid. */
static void draw_state(uint32_t number, double *input) {
    const struct fluid *fluid = fluid_numbered(number);
    do {
        draw_temperature(number, input);
        input[1] = next_word() >> 63 ? uniform(fluid->rhoc, fluid->rho.greatest) : uniform(fluid->rho.least, fluid->rhoc);
    } while (isnan(bench_sound_speed(number, input[0], input[1])));
}

/* A question that either plain search answers. */
static void draw_question(uint32_t number, double *input) {
    size_t top = fluid_numbered(number)->top;
    do {
        draw_temperature(number, input);
        draw_pressure(number, input + 1);
    } while (isnan(bench_plain(number, input[0], input[1], top, BELOW)) ||
             isnan(bench_plain(number, input[0], input[1], top, ABOVE)));
}

/* ---- at the ends and outside */

#define OUTSIDE NAN, INFINITY, -INFINITY, 0.0, -0.0
#define WRITTEN(edge, ...) written(edge, (const double[]){__VA_ARGS__}, sizeof((const double[]){__VA_ARGS__}) / sizeof(double))

static int written(double *edge, const double *from, size_t count) {
    memcpy(edge, from, count * sizeof *from);
    return (int)count;
}

static double before(double x) {
    return nextafter(x, -INFINITY);
}

static double after(double x) {
    return nextafter(x, INFINITY);
}

static int no_edges(const struct fluid *fluid, double *edge) {
    (void)fluid, (void)edge;
    return 0;
}

static int exp_edges(const struct fluid *fluid, double *edge) {
    (void)fluid;
    return WRITTEN(edge, OUTSIDE, 0x1p-1074, -700.0, 700.0, before(-700.0), after(700.0));
}

static int ln_edges(const struct fluid *fluid, double *edge) {
    (void)fluid;
    return WRITTEN(edge, OUTSIDE, -1.0, 1.0, before(1.5), 1.5, before(1.0), 0x1p-60, 0x1p60, before(0x1p-60), after(0x1p60));
}

static int root_edges(const struct fluid *fluid, double *edge) {
    (void)fluid;
    return WRITTEN(edge, OUTSIDE, -1.0, 1.0, 65536.0, 1e8, before(1.0), after(1e8));
}

/* The ends of the ranges, the doubles next to them, unstable states, and what is no number. */
static int state_edges(const struct fluid *f, double *edge) {
    struct range T = f->T, rho = f->rho;
    return WRITTEN(edge, T.least, rho.least, T.greatest, rho.greatest, T.greatest, rho.least, T.least, rho.greatest,
                   before(T.least), 1.0, after(T.greatest), 1.0, 300.0, after(rho.greatest), 300.0, before(rho.least),
                   250.0, -0.0, 250.0, 0x1p-80, 250.0, 5.0, f->Tc, f->rhoc, NAN, 1.0, 300.0, NAN, INFINITY, 1.0, 300.0,
                   INFINITY) / 2;
}

static int density_edges(const struct fluid *fluid, double *edge) {
    return WRITTEN(edge, OUTSIDE, 0x1p-80, fluid->rho.greatest);
}

/* Ends of the ranges, what lies outside, and what is no number. */
static int question_edges(const struct fluid *f, double *edge) {
    struct range T = f->T, P = f->P;
    return WRITTEN(edge, T.least, P.least, T.greatest, P.greatest, T.greatest, P.least, T.least, P.greatest, before(T.least),
                   1e5, after(T.greatest), 1e5, 300.0, before(P.least), 300.0, after(P.greatest), NAN, 1e5, 300.0, NAN) / 2;
}

static int temperature_edges(const struct fluid *fluid, double *edge) {
    return WRITTEN(edge, OUTSIDE, fluid->T.least, fluid->T.greatest, before(fluid->T.least), after(fluid->T.greatest));
}

static int pressure_edges(const struct fluid *fluid, double *edge) {
    return WRITTEN(edge, OUTSIDE, before(fluid->P.least), fluid->P.least, fluid->P.greatest, after(fluid->P.greatest));
}

#endif
