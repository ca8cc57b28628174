/* What is asked of a family of calls: the inside of a fluid's range, and every edge of any fluid's more often. */
#ifndef FAMILIES_H
#define FAMILIES_H

#include "../generator.h"

uint64_t elementary_argument(struct generator *g, uint64_t call);

/* T in K: of a state or a search, and of an estimate. */
uint64_t temperature(struct generator *g, const struct fluid *fluid);
uint64_t estimate_temperature(struct generator *g, const struct fluid *fluid);

/* In mol/dm³. */
uint64_t density(struct generator *g, const struct fluid *fluid);

/* Temperature and density; temperature and pressure, also such that states about the critical point are found more often. */
struct question state(struct generator *g, const struct fluid *fluid);
struct question search(struct generator *g, const struct fluid *fluid);
struct question critical_search(struct generator *g, const struct fluid *fluid);

/* A number between a value of one fluid and the same of another: what one permits the other may not. */
typedef double fluid_value(const struct fluid *fluid);
uint64_t between_fluids(struct generator *g, fluid_value *value);

/* The values between which fluids differ. */
fluid_value least_temperature, greatest_temperature, critical_temperature;
fluid_value greatest_density, critical_density, greatest_pressure;

#endif
