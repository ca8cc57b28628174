/* The calls of one form, which has defined `state_at` and `isotherm_total` before. Each takes the fluid's number first; where no
 * fluid has it there is no number. */
#include "named.h"

double NAMED(pressure)(uint32_t number, double T, double rho);
double NAMED(entropy)(uint32_t number, double T, double rho);
double NAMED(isobaric)(uint32_t number, double T, double rho);
double NAMED(sound_speed)(uint32_t number, double T, double rho);
double NAMED(isotherm)(uint32_t number, double T, const double *densities, size_t count);

double NAMED(pressure)(uint32_t number, double T, double rho) {
    const struct fluid *fluid = fluid_numbered(number);
    if (!permitted(fluid, T, rho))
        return NAN;
    struct state s = state_at(fluid, T, worked(rho));
    return state_pressure(&s);
}

double NAMED(entropy)(uint32_t number, double T, double rho) {
    const struct fluid *fluid = fluid_numbered(number);
    if (!permitted(fluid, T, rho) || rho == 0.0)
        return NAN;
    struct state s = state_at(fluid, T, rho);
    return entropy_of(&s);
}

double NAMED(isobaric)(uint32_t number, double T, double rho) {
    const struct fluid *fluid = fluid_numbered(number);
    if (!permitted(fluid, T, rho))
        return NAN;
    struct state s = state_at(fluid, T, worked(rho));
    return isobaric_of(&s);
}

double NAMED(sound_speed)(uint32_t number, double T, double rho) {
    const struct fluid *fluid = fluid_numbered(number);
    if (!permitted(fluid, T, rho))
        return NAN;
    struct state s = state_at(fluid, T, worked(rho));
    return sound_speed_of(&s);
}

/* The sum of the pressures at T and each of the densities. */
double NAMED(isotherm)(uint32_t number, double T, const double *densities, size_t count) {
    const struct fluid *fluid = fluid_numbered(number);
    return fluid ? isotherm_total(fluid, T, densities, count) : NAN;
}
