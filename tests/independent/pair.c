/* M-105: the tests of a pair in their order, and the rounds of the proposer. */
#include "pair.h"

#include "arithmetic.h"
#include "equation.h"

/* Both phases, and how far the liquid's numbers are above the vapour's. */
struct phases {
    struct phase liquid, vapour;
    double dp, dg;
};

static const struct range pressures_apart = { -0.01, 0.01 };
static const struct range values_apart = { -1e-9, 1e-9 };

/* A NaN is in no range. */
static bool has_densities_in_range(const struct fluid *fluid, struct pair pair)
{
    return in_range(fluid->rho, pair.liquid) && in_range(fluid->rho, pair.vapour);
}

/* T < Tc and 0 < vapour < ρc < liquid */
static bool is_below_critical(const struct fluid *fluid, double T, struct pair pair)
{
    return T < fluid->Tc && 0 < pair.vapour && pair.vapour < fluid->rhoc && fluid->rhoc < pair.liquid;
}

static struct phases phases_of(const struct isotherm *isotherm, struct pair pair)
{
    struct phase liquid = isotherm_phase(isotherm, pair.liquid);
    struct phase vapour = isotherm_phase(isotherm, pair.vapour);
    return (struct phases){
        .liquid = liquid,
        .vapour = vapour,
        .dp = liquid.p - vapour.p,
        .dg = liquid.g - vapour.g,
    };
}

static bool are_finite(const struct phases *phases)
{
    return isfinite(phases->dp) && isfinite(phases->dg) && isfinite(phases->liquid.Q)
           && isfinite(phases->vapour.Q);
}

static bool are_in_equilibrium(const struct phases *phases)
{
    return phases->liquid.Q > 0 && phases->vapour.Q > 0 && in_range(pressures_apart, phases->dp)
           && in_range(values_apart, phases->dg);
}

static uint64_t input_refusal(const struct fluid *fluid, double T, struct pair pair)
{
    if (!isfinite(T) || !isfinite(pair.liquid) || !isfinite(pair.vapour))
        return REFUSED_NOT_A_NUMBER;
    if (!in_range(fluid->T, T))
        return REFUSED_TEMPERATURE;
    return has_densities_in_range(fluid, pair) ? ANSWERED : REFUSED_DENSITY;
}

uint64_t judge(uint64_t number, double T, struct pair pair)
{
    const struct fluid *fluid = fluid_numbered(number);
    if (fluid == NULL)
        return REFUSED_UNKNOWN_FLUID;
    uint64_t code = input_refusal(fluid, T, pair);
    if (code != ANSWERED)
        return code;
    if (!is_below_critical(fluid, T, pair))
        return REFUSED_NOT_ACCEPTED;
    struct isotherm isotherm = isotherm_at(fluid, T);
    struct phases phases = phases_of(&isotherm, pair);
    if (!are_finite(&phases))
        return REFUSED_NOT_FINITE;
    return are_in_equilibrium(&phases) ? ANSWERED : REFUSED_NOT_ACCEPTED;
}

/* A number of the round that is not finite leaves a density that is not, and so one out of range (see arithmetic.h). */
static struct pair next_pair(const struct isotherm *isotherm, struct pair pair, const struct phases *phases)
{
    double l = pair.liquid, v = pair.vapour;
    double D = phases->dp / ((1000 * isotherm->fluid->R) * isotherm->T);
    double E = phases->dg;
    double y = quotient(D / l - E, 1 / l - 1 / v);
    double x = y - D;
    return (struct pair){ .liquid = l + x / phases->liquid.Q, .vapour = v + y / phases->vapour.Q };
}

static struct proposal no_pair(uint64_t code)
{
    return (struct proposal){ .code = code, .pair = { NAN, NAN } };
}

/* The first pair that is accepted, of this one and those of the rounds. */
static struct proposal rounds_from(const struct isotherm *isotherm, struct pair pair)
{
    for (int rounds = 0; rounds <= MOST_ROUNDS; rounds++) {
        if (!has_densities_in_range(isotherm->fluid, pair))
            break;
        struct phases phases = phases_of(isotherm, pair);
        if (!are_finite(&phases))
            break;
        if (is_below_critical(isotherm->fluid, isotherm->T, pair) && are_in_equilibrium(&phases))
            return (struct proposal){ .code = ANSWERED, .pair = pair, .rounds = rounds };
        pair = next_pair(isotherm, pair, &phases);
    }
    return no_pair(REFUSED_GIVEN_UP);
}

static uint64_t proposal_refusal(const struct fluid *fluid, double T, size_t room)
{
    if (!isfinite(T))
        return REFUSED_NOT_A_NUMBER;
    if (!in_range(fluid->T, T))
        return REFUSED_TEMPERATURE;
    if (room < PAIR_BYTES)
        return REFUSED_SHORT_LIST;
    return T > fluid->Tc ? REFUSED_ABOVE_CRITICAL : ANSWERED;
}

struct proposal propose(uint64_t number, double T, size_t room)
{
    const struct fluid *fluid = fluid_numbered(number);
    if (fluid == NULL)
        return no_pair(REFUSED_UNKNOWN_FLUID);
    uint64_t code = proposal_refusal(fluid, T, room);
    if (code != ANSWERED)
        return no_pair(code);
    struct outcome liquid = estimate_at(fluid, LIQUID_DENSITY, T);
    struct outcome vapour = estimate_at(fluid, VAPOUR_DENSITY, T);
    if (liquid.code != ANSWERED || vapour.code != ANSWERED)
        return no_pair(REFUSED_NOT_FINITE);
    struct isotherm isotherm = isotherm_at(fluid, T);
    return rounds_from(&isotherm, (struct pair){ .liquid = liquid.value, .vapour = vapour.value });
}
