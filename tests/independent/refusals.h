/* The refusals that a call can give, and the shape of what it gives. */
#ifndef REFUSALS_H
#define REFUSALS_H

#include <math.h>
#include <stdint.h>

/* 01, "Numbered refusals", M-100's 17, and M-105's 19 and 20. */
enum refusal {
    ANSWERED = 0,
    REFUSED_NOT_A_NUMBER = 2,
    REFUSED_TEMPERATURE = 3,
    REFUSED_DENSITY = 4,
    REFUSED_PRESSURE = 5,
    REFUSED_TOP_CELL = 6,
    REFUSED_SHORT_LIST = 7,
    REFUSED_NOT_REACHED = 8,
    REFUSED_HALVINGS = 9,
    REFUSED_DENSITY_ZERO = 10,
    REFUSED_UNSTABLE = 11,
    REFUSED_NOT_FINITE = 12,
    REFUSED_ABOVE_CRITICAL = 13,
    REFUSED_UNKNOWN = 14,
    REFUSED_CUT_SHORT = 15,
    REFUSED_NOT_ENCLOSED = 16,
    REFUSED_UNKNOWN_FLUID = 17,
    REFUSED_TOO_MANY_RECORDS = 18,
    REFUSED_NOT_ACCEPTED = 19,
    REFUSED_GIVEN_UP = 20,
};

/* As many codes as there are, 0 among them. */
enum { CODES = 21 };

struct outcome {
    uint64_t code;
    double value;
};

/* 01, "Wrong turns": 0 is not handed out beside a code. */
static inline struct outcome refused(uint64_t code)
{
    return (struct outcome){ .code = code, .value = NAN };
}

static inline struct outcome answered(double value)
{
    return (struct outcome){ .code = ANSWERED, .value = value };
}

/* A formula's last value is finite exactly if all its values were (see arithmetic.h). */
static inline struct outcome settled(double value)
{
    return isfinite(value) ? answered(value) : refused(REFUSED_NOT_FINITE);
}

#endif
