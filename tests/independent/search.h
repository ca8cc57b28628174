/* 01, "Density from pressure": the searches over any pressures, whatever fluid they are of. */
#ifndef SEARCH_H
#define SEARCH_H

#include "refusals.h"

enum { HALVINGS = 23 };

#define STEPS_IN_CELL ((uint64_t)1 << HALVINGS)

enum side { BELOW, ABOVE };

/* The pressure at a density step, or 12. */
struct pressures {
    struct outcome (*at_step)(const void *of, uint64_t step);
    const void *of;
};

/* A cell or a step that was looked for. */
struct place {
    uint64_t code;
    uint64_t number;
};

struct place plain_cell(const struct pressures *p, double P, uint64_t c, enum side side);
struct place quick_cell(const struct pressures *p, double P, uint64_t c, const double *list);
struct place step_in_cell(const struct pressures *p, double P, uint64_t cell);

/* Fills the first c+1 places of both lists; gives 12 or 0. */
uint64_t fill_lists(const struct pressures *p, uint64_t c, double *G, double *L);

#endif
