/* The functions that are compared and timed: the package's, the equation as it is printed in C, the package's form in C at two
 * levels of optimisation, and in Rust. What is of a fluid takes its number first. */
#ifndef CANDIDATES_H
#define CANDIDATES_H

#include <stddef.h>
#include <stdint.h>

enum { PACKAGE, NAIVE, C_O2, C_O3, RUST, CANDIDATES };

static const char *const candidate_names[CANDIDATES] = {"package", "naive C", "C -O2", "C -O3", "Rust"};

/* A candidate whatever its arguments are; who calls it knows them. */
typedef void candidate(void);

#define DECLARE(type, name, ...)                                                                                      \
    type bench_##name(__VA_ARGS__);                                                                                   \
    type naive_##name(__VA_ARGS__);                                                                                   \
    type c_o2_##name(__VA_ARGS__);                                                                                    \
    type c_o3_##name(__VA_ARGS__);                                                                                    \
    type rust_##name(__VA_ARGS__);
#define ALL_BUT_NAIVE(name)                                                                                           \
    {                                                                                                                 \
        (candidate *)bench_##name, NULL, (candidate *)c_o2_##name, (candidate *)c_o3_##name,                          \
            (candidate *)rust_##name                                                                                  \
    }
#define ALL_OF(name)                                                                                                  \
    {                                                                                                                 \
        (candidate *)bench_##name, (candidate *)naive_##name, (candidate *)c_o2_##name,                               \
            (candidate *)c_o3_##name, (candidate *)rust_##name                                                        \
    }

DECLARE(double, exp, double)
DECLARE(double, ln, double)
DECLARE(double, root, double)
DECLARE(double, pressure, uint32_t, double, double)
DECLARE(double, entropy, uint32_t, double, double)
DECLARE(double, isobaric, uint32_t, double, double)
DECLARE(double, sound_speed, uint32_t, double, double)
DECLARE(double, isotherm, uint32_t, double, const double *, size_t)
DECLARE(double, plain, uint32_t, double, double, size_t, uint32_t)
DECLARE(uint32_t, prepare, uint32_t, double, size_t, double *, size_t, double *, size_t)
DECLARE(double, quick, uint32_t, double, double, size_t, uint32_t, const double *, size_t, const double *, size_t)

#endif
