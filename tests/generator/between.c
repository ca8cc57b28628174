/* Numbers that one fluid permits and another may not. */
#include "draw.h"
#include "families.h"

double least_temperature(const struct fluid *fluid)
{
    return fluid->T.least;
}

double greatest_temperature(const struct fluid *fluid)
{
    return fluid->T.greatest;
}

double critical_temperature(const struct fluid *fluid)
{
    return fluid->Tc;
}

double greatest_density(const struct fluid *fluid)
{
    return fluid->rho.greatest;
}

double critical_density(const struct fluid *fluid)
{
    return fluid->rhoc;
}

double greatest_pressure(const struct fluid *fluid)
{
    return fluid->P.greatest;
}

uint64_t between_fluids(struct generator *g, fluid_value *value)
{
    uint64_t one = below(g, FLUIDS);
    uint64_t other = (one + 1 + below(g, FLUIDS - 1)) % FLUIDS;
    return uniform(g, value(fluid_numbered(one)), value(fluid_numbered(other)));
}
