/* Random questions of all fluids: the same stream again from the same seed. */
#ifndef GENERATOR_H
#define GENERATOR_H

#include "wire.h"

/* Stands among the numbers for those that are no call, or a call of no fluid. */
#define UNKNOWN_NUMBERS UINT64_MAX

struct generator {
    uint64_t state;
    const uint64_t *numbers;
    size_t numbers_count;
    uint64_t T_bits;
};

/* Each question has one of the numbers, taken at random. */
struct generator generator_of(uint64_t seed, const uint64_t *numbers, size_t numbers_count);
struct question next_question(struct generator *g);

#endif
