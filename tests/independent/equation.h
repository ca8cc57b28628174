/* 01, "The equation": nine properties of a state and three saturation estimates. */
#ifndef EQUATION_H
#define EQUATION_H

#include "fluid.h"
#include "refusals.h"

#include <stdbool.h>

enum property {
    PRESSURE,
    ENERGY,
    ENTHALPY,
    ISOCHORIC_HEAT_CAPACITY,
    ENTROPY,
    GIBBS,
    HELMHOLTZ,
    ISOBARIC_HEAT_CAPACITY,
    SOUND_SPEED,
    PROPERTIES
};

enum estimate { SATURATION_PRESSURE, LIQUID_DENSITY, VAPOUR_DENSITY, ESTIMATES };

/* What all states of one temperature share: τ and each row's τᵗ. */
struct isotherm {
    const struct fluid *fluid;
    double T, tau;
    double power[ROWS];
};

/* What M-105 judges a phase by: p in Pa, 1 + I0 + S0 + S1, and Q. One that is not finite stands for a 12 of its formula. */
struct phase {
    double p, g, Q;
};

/* T in K, rho in mol/dm³; Pa, J/mol, J/(mol K) or m/s. */
struct outcome property_at(const struct fluid *fluid, enum property property, double T, double rho);

/* T in K; Pa or mol/dm³. */
struct outcome estimate_at(const struct fluid *fluid, enum estimate estimate, double T);

/* T and rho must be in range: the searches test once and then ask for many densities, and so does M-105's proposer. */
struct isotherm isotherm_at(const struct fluid *fluid, double T);
struct outcome isotherm_pressure(const struct isotherm *isotherm, double rho);
struct phase isotherm_phase(const struct isotherm *isotherm, double rho);

bool in_range(struct range range, double x);

#endif
