/* Pairs at random for the judge: good ones, nearly good ones and absurd ones. */
#ifndef TRIALS_H
#define TRIALS_H

#include "drawn.h"

/* What a pair is. */
enum sort {
    HANDED_ON,
    BESIDE,
    AT_PRESSURE_BOUND,
    AT_VALUE_BOUND,
    SWAPPED,
    DENSITY_AT_A_LIMIT,
    AT_CRITICAL_TEMPERATURE,
    AROUND_CRITICAL_POINT,
    AT_STABILITY_LIMIT,
    THIN_VAPOUR,
    ANY_DENSITIES,
    ANY_PATTERNS,
    SORTS,
};

extern const char *const sort_names[SORTS];

void draw_trial(struct generator *g, enum sort sort, struct trial *trial);

#endif
