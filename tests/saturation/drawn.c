/* Orders at random. */
#include "drawn.h"

#include "../generator/draw.h"
#include "../independent/bits.h"

const char *const warmth_names[WARMTHS] = {
    [IN_RANGE] = "in range",
    [BELOW_CRITICAL] = "below Tc",
    [POWERS_OF_TEN_BELOW_CRITICAL] = "powers of ten below Tc",
    [CLOSING_IN_ON_CRITICAL] = "ever closer to Tc",
    [WITH_MANY_ROUNDS] = "with many rounds",
    [AT_A_LIMIT] = "at a limit",
    [NO_TEMPERATURE] = "any bits",
};

/* ---- fluids */

/* Numbers that are a fluid's in one bit, in eight, in sixteen, and but for the highest. */
static const uint32_t unknown_fluids[] = {
    2, 3, 255, 256, 257, 65535, 65536, 65537, 1u << 31, (1u << 31) + 1, UINT32_MAX - 1, UINT32_MAX,
};

enum { UNKNOWN_FLUIDS = sizeof unknown_fluids / sizeof *unknown_fluids };

int fluid_of(uint32_t number)
{
    return number < FLUIDS ? (int)number : NO_FLUID;
}

const char *fluid_name(int fluid)
{
    return fluid == NO_FLUID ? "unknown fluid" : fluid_numbered((uint64_t)fluid)->name;
}

uint32_t any_fluid_number(struct generator *g)
{
    if (below(g, 8) != 0)
        return (uint32_t)below(g, FLUIDS);
    return below(g, 2) == 0 ? unknown_fluids[below(g, UNKNOWN_FLUIDS)] : FLUIDS + (uint32_t)below(g, UINT32_MAX - FLUIDS);
}

uint32_t drawn_by(uint32_t number)
{
    return number % FLUIDS;
}

/* ---- temperatures */

static uint64_t powers_of_ten_below(struct generator *g, double number)
{
    double distance = 1 + (double)below(g, 9);
    for (uint64_t power = below(g, 15); power > 0; power--)
        distance /= 10;
    return bits_of(number - distance);
}

/* Of R-245fa, close to its Tc: eight with 17 to 23 rounds, and four where no pair of 40 rounds is accepted. */
static const double many_rounds[] = {
    0x1.ab028ed11fe89p+8, 0x1.ab028ece272fap+8, 0x1.ab028f3dccc66p+8, 0x1.ab028effb871ap+8,
    0x1.ab028ecea9ad1p+8, 0x1.ab028ecb0b614p+8, 0x1.ab028efe40814p+8, 0x1.ab028ec6597c2p+8,
    0x1.ab028f4b713c3p+8, 0x1.ab028f5b4f21p+8,  0x1.ab028f5928a75p+8, 0x1.ab028f2f9a64ep+8,
};

enum { MANY_ROUNDS = sizeof many_rounds / sizeof *many_rounds };

static uint64_t any_limit(struct generator *g, const struct fluid *fluid)
{
    const double limits[] = { fluid->T.least, fluid->T.greatest, fluid->Tc };
    return nearby(g, limits[below(g, 3)]);
}

uint64_t any_pattern(struct generator *g)
{
    return below(g, 2) == 0 ? special(g) : any_bits(g);
}

uint64_t any_temperature(struct generator *g, const struct fluid *fluid, enum warmth warmth)
{
    switch (warmth) {
    case IN_RANGE:
        return uniform(g, fluid->T.least, fluid->T.greatest);
    case BELOW_CRITICAL:
        return uniform(g, fluid->T.least, fluid->Tc);
    case POWERS_OF_TEN_BELOW_CRITICAL:
        return powers_of_ten_below(g, fluid->Tc);
    case CLOSING_IN_ON_CRITICAL:
        return closing_in(g, fluid->Tc, 1);
    case WITH_MANY_ROUNDS:
        return bits_of(many_rounds[below(g, MANY_ROUNDS)]);
    case AT_A_LIMIT:
        return any_limit(g, fluid);
    default:
        return any_pattern(g);
    }
}

void draw_order(struct generator *g, enum warmth warmth, struct order *order)
{
    order->fluid = any_fluid_number(g);
    order->T = any_temperature(g, fluid_numbered(drawn_by(order->fluid)), warmth);
    order->length = below(g, 4) == 0 ? below(g, PAIR_BYTES + 1) : PAIR_BYTES + below(g, LONGEST_OUTPUT - PAIR_BYTES + 1);
    for (size_t k = 0; k < LONGEST_OUTPUT; k++)
        order->before[k] = (uint8_t)any_bits(g);
}
