/* 01, "Density from pressure": the refusals of each call, then the search over the equation. */
#include "density.h"

#include "equation.h"

double density_of_step(uint64_t k)
{
    return (double)k * 0x1p-30;
}

static struct outcome pressure_at_step(const void *of, uint64_t step)
{
    return isotherm_pressure(of, density_of_step(step));
}

static struct pressures pressures_of(const struct isotherm *isotherm)
{
    return (struct pressures){ .at_step = pressure_at_step, .of = isotherm };
}

static struct found no_density(uint64_t code)
{
    return (struct found){ .code = code, .rho = NAN, .word = NO_WORD };
}

static bool short_lists(struct lists lists, uint64_t c)
{
    return lists.G.places < c + 1 || lists.L.places < c + 1;
}

static uint64_t search_refusal(const struct fluid *fluid, double T, double P, uint64_t c)
{
    if (!isfinite(T) || !isfinite(P))
        return REFUSED_NOT_A_NUMBER;
    if (!in_range(fluid->T, T))
        return REFUSED_TEMPERATURE;
    if (!in_range(fluid->P, P))
        return REFUSED_PRESSURE;
    if (c < 1 || c > fluid->top)
        return REFUSED_TOP_CELL;
    return ANSWERED;
}

/* M-104: by the density found, not by the side that it was searched from. */
static enum word word_of(const struct fluid *fluid, double T, double rho)
{
    if (T >= fluid->Tc)
        return FLUID;
    return rho < fluid->rhoc ? VAPOUR : LIQUID;
}

uint64_t word_number(enum word word)
{
    switch (word) {
    case FLUID:
        return 1;
    case VAPOUR:
        return 2;
    case LIQUID:
        return 3;
    default:
        return 0;
    }
}

static struct found density_in(const struct isotherm *isotherm, struct place cell, double P)
{
    if (cell.code != ANSWERED)
        return no_density(cell.code);
    struct pressures p = pressures_of(isotherm);
    struct place step = step_in_cell(&p, P, cell.number);
    if (step.code != ANSWERED)
        return no_density(step.code);
    double rho = density_of_step(step.number);
    return (struct found){
        .code = ANSWERED,
        .rho = rho,
        .word = word_of(isotherm->fluid, isotherm->T, rho),
    };
}

struct found plain_density(const struct fluid *fluid, double T, double P, uint64_t c,
                           enum side side)
{
    uint64_t code = search_refusal(fluid, T, P, c);
    if (code != ANSWERED)
        return no_density(code);
    struct isotherm isotherm = isotherm_at(fluid, T);
    struct pressures p = pressures_of(&isotherm);
    return density_in(&isotherm, plain_cell(&p, P, c, side), P);
}

uint64_t prepare(const struct fluid *fluid, double T, uint64_t c, struct lists lists)
{
    if (!isfinite(T))
        return REFUSED_NOT_A_NUMBER;
    if (!in_range(fluid->T, T))
        return REFUSED_TEMPERATURE;
    if (c < 1 || c > fluid->top)
        return REFUSED_TOP_CELL;
    if (short_lists(lists, c))
        return REFUSED_SHORT_LIST;
    struct isotherm isotherm = isotherm_at(fluid, T);
    struct pressures p = pressures_of(&isotherm);
    return fill_lists(&p, c, lists.G.list, lists.L.list);
}

struct found quick_density(const struct fluid *fluid, double T, double P, uint64_t c,
                           enum side side, struct lists lists)
{
    uint64_t code = search_refusal(fluid, T, P, c);
    if (code != ANSWERED)
        return no_density(code);
    if (short_lists(lists, c))
        return no_density(REFUSED_SHORT_LIST);
    struct isotherm isotherm = isotherm_at(fluid, T);
    struct pressures p = pressures_of(&isotherm);
    const double *list = side == BELOW ? lists.G.list : lists.L.list;
    return density_in(&isotherm, quick_cell(&p, P, c, list), P);
}
