/* Questions of a temperature and a density: each property is asked about the same picked states of a fluid. */
#include "../independent/bits.h"
#include "../special.h"
#include "../splitmix.h"
#include "sheet.h"

#include <math.h>

enum { STATES = 20, GASES = 8 };

/* T in K, rho in mol/dm³. */
struct state {
    double T, rho;
};

struct picked_state {
    const struct fluid *fluid;
    double T, rho;
};

/* Permitted everywhere, so that the other number alone decides. */
static const struct state inside = { 300, 1 };

static const struct picked_state picked_states[] = {
    /* 003, Table 3 */
    { &r245ca, 250, 11.3 },
    { &r245ca, 400, 8 },
    { &r245ca, 448, 3.92 },
    { &r245ca, 250, 0 },
    { &r245ca, 420, 1 },
    { &r245ca, 450, 7 },
    /* 001, Table 7 */
    { &r245fa, 250, 10.90057 },
    { &r245fa, 250, 0.008011195 },
    { &r245fa, 400, 7.151800 },
    { &r245fa, 400, 1.068455 },
    { &r245fa, 250, 11 },
    { &r245fa, 250, 0.005 },
    { &r245fa, 400, 9 },
    { &r245fa, 400, 0.5 },
    /* a liquid under tension */
    { &r245ca, 320, 9.5 },
    { &r245fa, 300, 9.5 },
    /* V and Q not above 0, V alone, Q alone: refusal 11 */
    { &r245ca, 400, 3 },
    { &r245ca, 390, 3.5 },
    { &r245ca, 300, 8 },
    { &r245ca, 250, 9 },
    { &r245fa, 400, 3 },
    { &r245fa, 300, 8 },
    { &r245fa, 250, 9 },
    /* the root's argument is above 10⁸, V being small: 12 */
    { &r245ca, 377.246, 4.573 },
    { &r245ca, 401.2, 3.54 },
    /* it is below 1, Q and K being small */
    { &r245ca, 318.061, 4.79 },
    { &r245ca, 355.0645, 3.50795 },
    { &r245fa, 313.044, 4.59373 },
    { &r245fa, 313.044, 4.59374 },
    /* Q is 0 itself, and V is: refusal 11 belongs to them */
    { &r245ca, 352, 0x1.ce015ed20c458p-1 },
    { &r245ca, 377.12, 0x1.d60260dd31d5dp+1 },
    { &r245fa, 400, 0x1.d3e67617f47dep+0 },
    /* neighbours between which Q, V or the root's argument leaves what is permitted */
    { &r245ca, 400, 0x1.55b4ab618609ep+0 },
    { &r245ca, 400, 0x1.55b4ab618609fp+0 },
    { &r245ca, 400, 0x1.bac241f4c882fp+2 },
    { &r245ca, 400, 0x1.bac241f4c883p+2 },
    { &r245ca, 0x1.7943f6d73fb32p+8, 4.573 },
    { &r245ca, 0x1.7943f6d73fb33p+8, 4.573 },
    { &r245ca, 0x1.793df4e3afb6bp+8, 4.573 },
    { &r245ca, 0x1.793df4e3afb6cp+8, 4.573 },
    { &r245fa, 400, 0x1.d3e67617f47ddp+0 },
    { &r245fa, 400, 0x1.d3e67617f47dfp+0 },
    { &r245fa, 400, 0x1.8beeec98bb1bap+2 },
    { &r245fa, 400, 0x1.8beeec98bb1bbp+2 },
};

static void ask_state(struct sheet *sheet, uint64_t number, double T, double rho)
{
    ask(sheet, number, bits_of(T), bits_of(rho));
}

static void ask_picked(struct sheet *sheet, uint64_t number, const struct fluid *fluid)
{
    for (size_t i = 0; i < sizeof picked_states / sizeof *picked_states; i++)
        if (picked_states[i].fluid == fluid)
            ask_state(sheet, number, picked_states[i].T, picked_states[i].rho);
}

/* The corners of the range, the critical point, and a state below it that gets 11. */
static void ask_remarkable(struct sheet *sheet, uint64_t number, const struct fluid *f)
{
    ask_state(sheet, number, f->T.least, f->rho.least);
    ask_state(sheet, number, f->T.least, f->rho.greatest);
    ask_state(sheet, number, f->T.greatest, f->rho.least);
    ask_state(sheet, number, f->T.greatest, f->rho.greatest);
    ask_state(sheet, number, f->Tc, f->rhoc);
    ask_state(sheet, number, f->Tc - 0.57, f->rhoc);
}

/* 2 before 3 before 4, and 3 before 10. */
static void ask_refused_twice(struct sheet *sheet, uint64_t number, const struct fluid *f)
{
    double hot = f->T.greatest + 50, cold = f->T.least - 1, dense = f->rho.greatest + 1;
    const struct state refused_twice[] = {
        { NAN, NAN },   { NAN, dense }, { hot, INFINITY }, { -INFINITY, -1 },
        { hot, dense }, { cold, -1 },   { hot, 0 },        { cold, -0.0 },
    };
    for (size_t i = 0; i < sizeof refused_twice / sizeof *refused_twice; i++)
        ask_state(sheet, number, refused_twice[i].T, refused_twice[i].rho);
}

static void ask_temperature_about(struct sheet *sheet, uint64_t number, double T, double rho)
{
    ask_state(sheet, number, nextafter(T, 0), rho);
    ask_state(sheet, number, T, rho);
    ask_state(sheet, number, nextafter(T, INFINITY), rho);
}

static void ask_density_about(struct sheet *sheet, uint64_t number, double rho)
{
    ask_state(sheet, number, inside.T, nextafter(rho, 0));
    ask_state(sheet, number, inside.T, rho);
    ask_state(sheet, number, inside.T, nextafter(rho, INFINITY));
}

/* A thin gas and a dense liquid: no property is refused at them with 11. */
static void ask_temperature_ends(struct sheet *sheet, uint64_t number, const struct fluid *f)
{
    static const double densities[] = { 1e-5, 12.5 };
    for (size_t i = 0; i < sizeof densities / sizeof *densities; i++) {
        ask_temperature_about(sheet, number, f->T.least, densities[i]);
        ask_temperature_about(sheet, number, f->T.greatest, densities[i]);
    }
}

/* The limits of every other fluid: what one permits another may not. */
static void ask_others_limits(struct sheet *sheet, uint64_t number, const struct fluid *f)
{
    for (uint64_t i = 0; i < FLUIDS; i++) {
        const struct fluid *other = fluid_numbered(i);
        if (other == f)
            continue;
        ask_temperature_about(sheet, number, other->T.least, 1e-5);
        ask_temperature_about(sheet, number, other->T.greatest, 1e-5);
        ask_density_about(sheet, number, other->rho.greatest);
    }
}

static void ask_densities(struct sheet *sheet, uint64_t number, const struct fluid *f)
{
    const double picked[] = {
        0, -0.0, 0x1p-1074, -0x1p-1074, 1e-300, 1e-12, f->rho.greatest + 1e-6, f->rho.greatest + 1, -1,
    };
    for (size_t i = 0; i < sizeof picked / sizeof *picked; i++)
        ask_state(sheet, number, inside.T, picked[i]);
    ask_density_about(sheet, number, f->rho.greatest);
    /* ln δ begins at δ = 2⁻⁶⁰. */
    ask_density_about(sheet, number, f->rhoc * 0x1p-60);
}

static void ask_not_finite(struct sheet *sheet, uint64_t number)
{
    for (size_t i = 0; i < SPECIAL_PATTERNS; i++) {
        if (isfinite(number_of(special_patterns[i])))
            continue;
        ask(sheet, number, special_patterns[i], bits_of(inside.rho));
        ask(sheet, number, bits_of(inside.T), special_patterns[i]);
    }
}

/* The i-th of count equal parts of the range. */
static double in_part(uint64_t *state, struct range range, int i, int count)
{
    double width = (range.greatest - range.least) / count;
    return splitmix_uniform(state, range.least + i * width, range.least + (i + 1) * width);
}

/* One state in each row and each column of a grid: 7 and STATES have no common factor. */
static void ask_grid(struct sheet *sheet, uint64_t number, const struct fluid *f)
{
    uint64_t state = number;
    for (int i = 0; i < STATES; i++) {
        double T = in_part(&state, f->T, i, STATES);
        ask_state(sheet, number, T, in_part(&state, f->rho, 7 * i % STATES, STATES));
    }
}

/* Densities from 10⁻⁷ to 1, a power of ten each. */
static void ask_gases(struct sheet *sheet, uint64_t number, const struct fluid *f)
{
    uint64_t state = ~number;
    double greatest = 1;
    for (int i = 0; i < GASES; i++) {
        double T = splitmix_uniform(&state, f->T.least, f->T.greatest);
        ask_state(sheet, number, T, splitmix_uniform(&state, greatest / 10, greatest));
        greatest /= 10;
    }
}

static void ask_property(struct sheet *sheet, uint64_t number, const struct fluid *f)
{
    ask_picked(sheet, number, f);
    ask_remarkable(sheet, number, f);
    ask_refused_twice(sheet, number, f);
    ask_temperature_ends(sheet, number, f);
    ask_others_limits(sheet, number, f);
    ask_densities(sheet, number, f);
    ask_not_finite(sheet, number);
    ask_grid(sheet, number, f);
    ask_gases(sheet, number, f);
}

void property_questions(struct sheet *sheet)
{
    struct numbers all = known_numbers();
    for (size_t i = 0; i < all.count; i++)
        if (known_call(all.number[i])->family == PROPERTY)
            ask_property(sheet, all.number[i], fluid_asked(all.number[i]));
}
