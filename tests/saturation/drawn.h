/* Fluids and temperatures at random, and what the proposer is asked. */
#ifndef DRAWN_H
#define DRAWN_H

#include "../generator.h"
#include "asked.h"

/* A number is of a fluid, or of none. */
enum { NO_FLUID = FLUIDS };

int fluid_of(uint32_t number);
const char *fluid_name(int fluid);

/* Most are known. */
uint32_t any_fluid_number(struct generator *g);

/* The fluid by which the numbers are drawn: of an unknown one it is some other. */
uint32_t drawn_by(uint32_t number);

/* Where a temperature is from. */
enum warmth {
    IN_RANGE,
    BELOW_CRITICAL,
    POWERS_OF_TEN_BELOW_CRITICAL,
    CLOSING_IN_ON_CRITICAL,
    WITH_MANY_ROUNDS,
    AT_A_LIMIT,
    NO_TEMPERATURE,
    WARMTHS,
};

extern const char *const warmth_names[WARMTHS];

uint64_t any_temperature(struct generator *g, const struct fluid *fluid, enum warmth warmth);

/* Bits at which number code goes wrong, and any others. */
uint64_t any_pattern(struct generator *g);

/* Most outputs are long enough. */
void draw_order(struct generator *g, enum warmth warmth, struct order *order);

#endif
