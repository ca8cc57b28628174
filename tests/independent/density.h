/* 01, "Density from pressure", asked of a fluid. */
#ifndef DENSITY_H
#define DENSITY_H

#include "fluid.h"
#include "search.h"

enum word { NO_WORD, FLUID, VAPOUR, LIQUID };

/* A density in mol/dm³ and the word with it. */
struct found {
    uint64_t code;
    double rho;
    enum word word;
};

/* A list that a caller lends. */
struct lent {
    double *list;
    size_t places;
};

struct lists {
    struct lent G, L;
};

/* 1 for fluid, 2 for vapour, 3 for liquid, and 0 where there is none. */
uint64_t word_number(enum word word);

/* The density of step k. */
double density_of_step(uint64_t k);

struct found plain_density(const struct fluid *fluid, double T, double P, uint64_t c,
                           enum side side);
uint64_t prepare(const struct fluid *fluid, double T, uint64_t c, struct lists lists);
struct found quick_density(const struct fluid *fluid, double T, double P, uint64_t c,
                           enum side side, struct lists lists);

#endif
