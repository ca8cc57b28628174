/* Most pairs are moved away from one that the proposer hands on. */
#include "trials.h"

#include "../generator/draw.h"
#include "../independent/bits.h"
#include "../independent/equation.h"

const char *const sort_names[SORTS] = {
    [HANDED_ON] = "as proposed",
    [BESIDE] = "beside the one proposed",
    [AT_PRESSURE_BOUND] = "with pressures 0.01 Pa apart",
    [AT_VALUE_BOUND] = "with values 1e-9 apart",
    [SWAPPED] = "the wrong way round",
    [DENSITY_AT_A_LIMIT] = "with one density at a limit",
    [AT_CRITICAL_TEMPERATURE] = "at Tc",
    [AROUND_CRITICAL_POINT] = "around the critical point",
    [AT_STABILITY_LIMIT] = "at the limit of stability",
    [THIN_VAPOUR] = "with a thin vapour",
    [ANY_DENSITIES] = "of any densities",
    [ANY_PATTERNS] = "of any bits",
};

/* A pair that is judged, and the fluid that it is drawn by. */
struct drawn {
    uint32_t number;
    const struct fluid *fluid;
    double T;
    struct pair pair;
};

static struct pair estimated_pair(const struct fluid *fluid, double T)
{
    return (struct pair){
        .liquid = estimate_at(fluid, LIQUID_DENSITY, T).value,
        .vapour = estimate_at(fluid, VAPOUR_DENSITY, T).value,
    };
}

/* The proposer's pair at a temperature below Tc, or the estimates where it has given up. */
static struct drawn proposed_pair(struct generator *g, uint32_t number)
{
    enum warmth warmth = below(g, 4) == 0 ? POWERS_OF_TEN_BELOW_CRITICAL : BELOW_CRITICAL;
    struct drawn drawn = { .number = number, .fluid = fluid_numbered(number) };
    drawn.T = number_of(any_temperature(g, drawn.fluid, warmth));
    struct proposal proposal = propose(number, drawn.T, PAIR_BYTES);
    drawn.pair = proposal.code == ANSWERED ? proposal.pair : estimated_pair(drawn.fluid, drawn.T);
    return drawn;
}

/* A few steps away from a density, or up to a million times as many. */
static double beside(struct generator *g, double density)
{
    uint64_t most = (uint64_t)4 << below(g, 21);
    return number_of(bits_of(density) + below(g, 2 * most + 1) - most);
}

/* 1 and, ever more often, what is ever closer to it; of either sign. */
static double about_one(struct generator *g)
{
    double part = number_of(closing_in(g, 1, 0.5));
    return below(g, 2) == 0 ? part : -part;
}

/* dp/dρ is ((1000·R)·T)·Q. */
static void move_to_pressure_bound(struct generator *g, struct drawn *drawn)
{
    struct isotherm isotherm = isotherm_at(drawn->fluid, drawn->T);
    struct phase liquid = isotherm_phase(&isotherm, drawn->pair.liquid), vapour = isotherm_phase(&isotherm, drawn->pair.vapour);
    double missing = 0.01 * about_one(g) - (liquid.p - vapour.p);
    drawn->pair.liquid += missing / (1000 * drawn->fluid->R * drawn->T * liquid.Q);
}

/* dg/dρ is Q/ρ. */
static void move_to_value_bound(struct generator *g, struct drawn *drawn)
{
    struct isotherm isotherm = isotherm_at(drawn->fluid, drawn->T);
    struct phase liquid = isotherm_phase(&isotherm, drawn->pair.liquid), vapour = isotherm_phase(&isotherm, drawn->pair.vapour);
    double missing = 1e-9 * about_one(g) - (liquid.g - vapour.g);
    drawn->pair.vapour -= missing * drawn->pair.vapour / vapour.Q;
}

static void swap(struct drawn *drawn)
{
    drawn->pair = (struct pair){ .liquid = drawn->pair.vapour, .vapour = drawn->pair.liquid };
}

static double density_limit(struct generator *g, const struct fluid *fluid)
{
    switch (below(g, 6)) {
    case 0:
        return 0.0;
    case 1:
        return -0.0;
    case 2:
    case 3:
        return number_of(nearby(g, fluid->rhoc));
    case 4:
        return number_of(nearby(g, fluid->rho.greatest));
    default:
        return number_of(either_sign(g, 1 + below(g, 4)));
    }
}

static void move_to_density_limit(struct generator *g, struct drawn *drawn)
{
    double *density = below(g, 2) == 0 ? &drawn->pair.liquid : &drawn->pair.vapour;
    *density = density_limit(g, drawn->fluid);
}

/* There all but one of the judge's tests are passed by many pairs, one density being the critical one in some. */
static void move_to_critical_point(struct generator *g, struct drawn *drawn)
{
    double rhoc = drawn->fluid->rhoc, width = number_of(log_uniform(g, 1e-6, 0.05));
    drawn->T = below(g, 3) == 0 ? number_of(nearby(g, drawn->fluid->Tc))
                                : drawn->fluid->Tc - number_of(log_uniform(g, 1e-8, 1e-2));
    drawn->pair.liquid = below(g, 4) == 0 ? rhoc : number_of(uniform(g, rhoc, rhoc * (1 + width)));
    drawn->pair.vapour = below(g, 4) == 0 ? rhoc : number_of(uniform(g, rhoc * (1 - width), rhoc));
}

/* Close to Tc: pressures and values are as they should be, and so is one Q, while the other is below 0, or 0 itself. */
static const struct state {
    double T;
    struct pair pair;
} unstable[FLUIDS][4] = {
    {
        { 0x1.bf91df055f314p+8, { 0x1.f5d275657bb44p+1, 0x1.f45c4d96ce533p+1 } },
        { 0x1.bf91ea5469e23p+8, { 0x1.f6a03dda1fe99p+1, 0x1.f5b6b4d94fcp+1 } },
        { 0x1.bf91e89edeeafp+8, { 0x1.f627ca1805d98p+1, 0x1.f52c5d888464ap+1 } },
        { 0x1.bf91eab18f41dp+8, { 0x1.f608ce00a6332p+1, 0x1.f594ca1c18c89p+1 } },
    },
    {
        { 0x1.ab028d41d403bp+8, { 0x1.f1fc4f9b78f05p+1, 0x1.e8c2e0ca5982bp+1 } },
        { 0x1.ab028e18c7acep+8, { 0x1.f57eca28779e3p+1, 0x1.ee39eb4855e84p+1 } },
        { 0x1.ab028e84215f9p+8, { 0x1.f2de558f32275p+1, 0x1.ed3c99661932p+1 } },
        { 0x1.ab028e08646fbp+8, { 0x1.f6f7458d481cap+1, 0x1.eca825750a0a4p+1 } },
    },
};

/* A step more or less can make both stable. */
static void move_to_stability_limit(struct generator *g, struct drawn *drawn)
{
    const struct state *state = &unstable[drawn->number][below(g, 4)];
    drawn->T = state->T;
    drawn->pair.liquid = beside(g, state->pair.liquid);
    drawn->pair.vapour = beside(g, state->pair.vapour);
}

/* About the least vapour that has a logarithm, and others of which most have none. */
static double thin_vapour(struct generator *g, const struct fluid *fluid)
{
    return below(g, 2) == 0 ? number_of(nearby(g, fluid->rhoc * 0x1p-60)) : number_of(log_uniform(g, 5e-324, 1e-10));
}

static void draw_any_densities(struct generator *g, struct drawn *drawn)
{
    drawn->pair.liquid = number_of(uniform(g, 0, drawn->fluid->rho.greatest * 1.05));
    drawn->pair.vapour = number_of(uniform(g, 0, drawn->fluid->rho.greatest * 1.05));
}

static void move(struct generator *g, enum sort sort, struct drawn *drawn)
{
    switch (sort) {
    case BESIDE:
        drawn->pair.liquid = beside(g, drawn->pair.liquid);
        drawn->pair.vapour = beside(g, drawn->pair.vapour);
        break;
    case AT_PRESSURE_BOUND:
        move_to_pressure_bound(g, drawn);
        break;
    case AT_VALUE_BOUND:
        move_to_value_bound(g, drawn);
        break;
    case SWAPPED:
        swap(drawn);
        break;
    case DENSITY_AT_A_LIMIT:
        move_to_density_limit(g, drawn);
        break;
    case AT_CRITICAL_TEMPERATURE:
        drawn->T = number_of(nearby(g, drawn->fluid->Tc));
        break;
    case AROUND_CRITICAL_POINT:
        move_to_critical_point(g, drawn);
        break;
    case AT_STABILITY_LIMIT:
        move_to_stability_limit(g, drawn);
        break;
    case THIN_VAPOUR:
        drawn->pair.vapour = thin_vapour(g, drawn->fluid);
        break;
    case ANY_DENSITIES:
        draw_any_densities(g, drawn);
        break;
    default:
        break;
    }
}

static uint64_t number_or_pattern(struct generator *g, double number, bool keep)
{
    return keep || below(g, 2) == 0 ? bits_of(number) : any_pattern(g);
}

void draw_trial(struct generator *g, enum sort sort, struct trial *trial)
{
    trial->fluid = any_fluid_number(g);
    struct drawn drawn = proposed_pair(g, drawn_by(trial->fluid));
    move(g, sort, &drawn);
    bool keep = sort != ANY_PATTERNS;
    trial->T = number_or_pattern(g, drawn.T, keep);
    trial->liquid = number_or_pattern(g, drawn.pair.liquid, keep);
    trial->vapour = number_or_pattern(g, drawn.pair.vapour, keep);
}
