/* The one test of M-105 that a pair fails, where it passes all the others: a judge without that test would accept it. */
#ifndef REASONS_H
#define REASONS_H

#include "asked.h"

enum reason {
    NOT_BELOW_CRITICAL,
    NO_VAPOUR,
    VAPOUR_NOT_THIN,
    LIQUID_NOT_DENSE,
    LIQUID_UNSTABLE,
    VAPOUR_UNSTABLE,
    PRESSURE_BELOW,
    PRESSURE_ABOVE,
    VALUE_BELOW,
    VALUE_ABOVE,
    REASONS,
};

/* What there is else to say of a pair. */
enum { SEVERAL_REASONS = REASONS };

extern const char *const reason_names[REASONS];

/* Of a trial that the judge refuses with 19. */
int only_reason(const struct trial *trial);

#endif
