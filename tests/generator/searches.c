/* Temperatures and pressures for the searches. */
#include "../independent/bits.h"
#include "../independent/density.h"
#include "../independent/equation.h"
#include "draw.h"
#include "families.h"

/* A pressure that the equation itself gives, where "≤ P" and "> P" meet. */
static uint64_t met_pressure(struct generator *g, const struct fluid *fluid, double T)
{
    if (!in_range(fluid->T, T))
        return any_bits(g);
    bool at_coarse_end = below(g, 2) == 0;
    uint64_t step = at_coarse_end ? STEPS_IN_CELL * below(g, fluid->top + 1)
                                  : below(g, STEPS_IN_CELL * fluid->top + 1);
    return nearby(g, property_at(fluid, PRESSURE, T, density_of_step(step)).value);
}

static uint64_t range_end(struct generator *g, struct range range)
{
    return nearby(g, below(g, 2) ? range.least : range.greatest);
}

static uint64_t asked_pressure(struct generator *g, const struct fluid *fluid, double T)
{
    uint64_t percent = below(g, 100);
    if (percent < 8)
        return range_end(g, any_fluid(g)->P);
    if (percent < 15)
        return below(g, 2) ? special(g) : any_bits(g);
    if (percent < 18)
        return bits_of(0.5);
    if (percent < 33)
        return met_pressure(g, fluid, T);
    if (percent < 40)
        return uniform(g, -fluid->P.greatest, 2 * fluid->P.greatest);
    if (percent < 50)
        return between_fluids(g, greatest_pressure);
    if (percent < 60)
        return uniform(g, fluid->P.least, fluid->P.greatest);
    if (percent < 68)
        return uniform(g, fluid->P.greatest / 2, fluid->P.greatest);
    return log_uniform(g, fluid->P.least, fluid->P.greatest);
}

/* The densest states are found at the greatest pressures of the lowest temperatures. */
static uint64_t search_temperature(struct generator *g, const struct fluid *fluid)
{
    double tenth = (fluid->T.greatest - fluid->T.least) / 10;
    return below(g, 8) ? temperature(g, fluid) : uniform(g, fluid->T.least, fluid->T.least + tenth);
}

/*
 * The temperature changes rarely, as it does where a preparation is worth its while, and all fluids are asked for it: what
 * is kept for one must not serve another.
 */
struct question search(struct generator *g, const struct fluid *fluid)
{
    if (below(g, 32) == 0)
        g->T_bits = search_temperature(g, fluid);
    return (struct question){
        .first = g->T_bits,
        .second = asked_pressure(g, fluid, number_of(g->T_bits)),
    };
}

/* At the critical density itself, on its way there, or between two fluids'. */
static double about_critical_density(struct generator *g, const struct fluid *fluid)
{
    switch (below(g, 4)) {
    case 0:
        return number_of(closing_in(g, fluid->rhoc, 1));
    case 1:
        return number_of(between_fluids(g, critical_density));
    default:
        return fluid->rhoc;
    }
}

/* The word changes at Tc and, below it, at the critical density; just below Tc states of about that density are found. */
struct question critical_search(struct generator *g, const struct fluid *fluid)
{
    uint64_t T = below(g, 4) ? closing_in(g, fluid->Tc, 1) : nearby(g, fluid->Tc);
    double rho = about_critical_density(g, fluid);
    return (struct question){
        .first = T,
        .second = nearby(g, property_at(fluid, PRESSURE, number_of(T), rho).value),
    };
}
