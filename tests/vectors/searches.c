/* Questions of a temperature and a pressure to the searches of each fluid, plain and quick, and for the word of the plain one. */
#include "../independent/bits.h"
#include "../independent/equation.h"
#include "sheet.h"

#include <math.h>

#define COUNT(list) (sizeof(list) / sizeof *(list))

static void ask_both(struct sheet *sheet, uint64_t number, double T, double P)
{
    ask(sheet, number, bits_of(T), bits_of(P));
}

/* Vapour, liquid, the loop between them, and states above the critical point. */
static void ask_states(struct sheet *sheet, uint64_t number, const struct fluid *f)
{
    const double temperatures[] = {
        f->T.least, 225, 250, 300, 350, 400, f->Tc - 7.57, f->Tc - 0.57, f->Tc, f->Tc + 0.43, f->T.greatest,
    };
    const double pressures[] = { f->P.least, 1000, 1e5, 5e5, 1e6, 2e6, 3e6, f->pc, 5e6, f->P.greatest };
    for (size_t i = 0; i < COUNT(temperatures); i++)
        for (size_t j = 0; j < COUNT(pressures); j++)
            ask_both(sheet, number, temperatures[i], pressures[j]);
}

/* The ends of the ranges, and which refusal comes first. */
static void ask_refusals(struct sheet *sheet, uint64_t number, const struct fluid *f)
{
    const double temperatures[] = {
        f->T.least - 0.1, f->T.least, f->T.greatest, f->T.greatest + 0.1, NAN, INFINITY,
    };
    const double pressures[] = {
        0, 0.5, f->P.least, f->P.greatest, f->P.greatest + 1, -1, NAN, -INFINITY,
    };
    for (size_t i = 0; i < COUNT(temperatures); i++)
        for (size_t j = 0; j < COUNT(pressures); j++)
            ask_both(sheet, number, temperatures[i], pressures[j]);
}

/* The limits of every fluid: what one permits another may not. */
static void ask_limits(struct sheet *sheet, uint64_t number)
{
    for (uint64_t i = 0; i < FLUIDS; i++) {
        const struct fluid *fluid = fluid_numbered(i);
        ask_both(sheet, number, fluid->T.least, 1e5);
        ask_both(sheet, number, fluid->T.greatest, 1e5);
        ask_both(sheet, number, 300, fluid->P.greatest);
        ask_both(sheet, number, 300, nextafter(fluid->P.greatest, INFINITY));
    }
}

static void ask_search(struct sheet *sheet, uint64_t number)
{
    ask_states(sheet, number, fluid_asked(number));
    ask_refusals(sheet, number, fluid_asked(number));
    ask_limits(sheet, number);
}

/* Tc, its neighbours and what comes ever closer from below; densities about the critical ones of all fluids. */
static void ask_critical(struct sheet *sheet, uint64_t number, const struct fluid *f)
{
    const double temperatures[] = {
        f->Tc - 1,     f->Tc - 0.01,          f->Tc - 1e-4, f->Tc - 1e-6,
        f->Tc - 1e-9, nextafter(f->Tc, 0), f->Tc,        nextafter(f->Tc, INFINITY),
    };
    const double densities[] = {
        f->rhoc - 0.01, f->rhoc - 1e-4, f->rhoc, f->rhoc + 1e-4, f->rhoc + 0.01, r245ca.rhoc, r245fa.rhoc,
    };
    for (size_t i = 0; i < COUNT(temperatures); i++)
        for (size_t j = 0; j < COUNT(densities); j++)
            ask_both(sheet, number, temperatures[i], property_at(f, PRESSURE, temperatures[i], densities[j]).value);
}

/* R-245fa's critical density is that of a step, and here it is found: at it the word is liquid. */
static void ask_at_critical_density(struct sheet *sheet, uint64_t number)
{
    ask_both(sheet, number, 0x1.ab028f5c18865p+8, 0x1.bdad9db5c7dfcp+21);
    ask_both(sheet, number, 0x1.ab028f5c18864p+8, 0x1.bdad9db5c7dfbp+21);
}

static void ask_word(struct sheet *sheet, uint64_t number)
{
    ask_search(sheet, number);
    ask_critical(sheet, number, fluid_asked(number));
    ask_at_critical_density(sheet, number);
}

void search_questions(struct sheet *sheet)
{
    struct numbers all = known_numbers();
    for (size_t i = 0; i < all.count; i++) {
        enum family family = known_call(all.number[i])->family;
        if (family == PLAIN_SEARCH || family == QUICK_SEARCH)
            ask_search(sheet, all.number[i]);
        if (family == PLAIN_WORD)
            ask_word(sheet, all.number[i]);
    }
}
