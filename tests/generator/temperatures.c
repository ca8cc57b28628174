/* Temperatures, and those of the saturation estimates. */
#include "draw.h"
#include "families.h"

static fluid_value *any_limit(struct generator *g)
{
    static fluid_value *const limits[] = { least_temperature, greatest_temperature,
                                           critical_temperature };
    return limits[below(g, sizeof limits / sizeof *limits)];
}

uint64_t temperature(struct generator *g, const struct fluid *fluid)
{
    uint64_t percent = below(g, 100);
    if (percent < 6)
        return nearby(g, any_limit(g)(any_fluid(g)));
    if (percent < 10)
        return below(g, 2) ? special(g) : any_bits(g);
    if (percent < 18)
        return closing_in(g, fluid->Tc, 10);
    if (percent < 23)
        return uniform(g, fluid->T.least - 10, fluid->T.greatest + 10);
    if (percent < 32)
        return between_fluids(g, any_limit(g));
    return uniform(g, fluid->T.least, fluid->T.greatest);
}

/* θ = 1 − T/Tc from its greatest to 0, and its powers near 0. */
uint64_t estimate_temperature(struct generator *g, const struct fluid *fluid)
{
    switch (below(g, 8)) {
    case 0:
        return closing_in(g, fluid->Tc, 10);
    case 1:
        return nearby(g, fluid->Tc);
    case 2:
    case 3:
        return temperature(g, fluid);
    default:
        return uniform(g, fluid->T.least, fluid->Tc);
    }
}
