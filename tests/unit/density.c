/* The searches asked of each fluid. */
#include "../independent/density.h"
#include "../independent/equation.h"
#include "check.h"

static const double untouched = -77;

struct own_lists {
    double G[LIST_ROOM], L[LIST_ROOM];
};

static struct lists lent(struct own_lists *own, size_t G_places, size_t L_places)
{
    for (size_t j = 0; j < LIST_ROOM; j++)
        own->G[j] = own->L[j] = untouched;
    return (struct lists){ .G = { own->G, G_places }, .L = { own->L, L_places } };
}

static bool are_from(const struct own_lists *own, size_t from, size_t to, double value)
{
    for (size_t j = from; j < to; j++)
        if (!same_bits(own->G[j], value) || !same_bits(own->L[j], value))
            return false;
    return true;
}

static bool found_nothing(uint64_t code, struct found found)
{
    return found.code == code && isnan(found.rho) && found.word == NO_WORD;
}

static double above(double x)
{
    return nextafter(x, INFINITY);
}

/* Cases f to i are 01's; a temperature above both ranges stands for its 500 K. */
static void check_plain_refusals(const struct fluid *f, enum side side)
{
    const char *name = f->name, *words = side == BELOW ? "from below" : "from above";
    uint64_t top = f->top;
    double most = f->P.greatest;
    check(found_nothing(2, plain_density(f, NAN, 0, top, side)), "%s: case f: NaN, P 0 %s", name, words);
    check(found_nothing(3, plain_density(f, 500, 0, top, side)), "%s: case g: T 500, P 0 %s", name, words);
    check(found_nothing(5, plain_density(f, 250, 0.5, top, side)), "%s: case h: P 0.5 %s", name, words);
    check(found_nothing(6, plain_density(f, 250, 1e5, 0, side)), "%s: case i: c 0 %s", name, words);
    check(found_nothing(6, plain_density(f, 250, 1e5, top + 1, side)), "%s: case i: c above the top %s", name,
          words);
    check(found_nothing(2, plain_density(f, 500, INFINITY, 0, side)), "%s: 2 before 3 %s", name, words);
    check(found_nothing(5, plain_density(f, 250, above(most), 0, side)), "%s: 5 before 6 %s", name, words);
    check(found_nothing(8, plain_density(f, f->T.greatest, most, 1, side)), "%s: 8 where c is too low %s", name,
          words);
    check(plain_density(f, 250, f->P.least, top, side).code == ANSWERED, "%s: the least P passes %s", name,
          words);
    check(plain_density(f, 250, most, top, side).code == ANSWERED, "%s: the greatest P passes %s", name, words);
    check(found_nothing(5, plain_density(f, 250, nextafter(f->P.least, 0), top, side)),
          "%s: 5 just below the least P %s", name, words);
}

static void check_preparation_refusals(const struct fluid *f)
{
    static struct own_lists own;
    const char *name = f->name;
    uint64_t top = f->top;
    struct lists lists = lent(&own, top + 1, top + 1);
    check(prepare(f, NAN, 0, lists) == 2, "%s: preparing: 2 before 6", name);
    check(prepare(f, 500, 0, lists) == 3, "%s: preparing: 3 before 6", name);
    check(prepare(f, 250, 0, lists) == 6, "%s: preparing: c 0 gets 6", name);
    check(prepare(f, 250, top + 1, lists) == 6, "%s: preparing: c above the top gets 6", name);
    check(prepare(f, 250, top, lent(&own, top, top + 1)) == 7, "%s: preparing: short G gets 7", name);
    check(prepare(f, 250, top, lent(&own, top + 1, top)) == 7, "%s: preparing: short L gets 7", name);
    check(prepare(f, 250, top + 1, lent(&own, 0, 0)) == 6, "%s: preparing: 6 before 7", name);
    check(are_from(&own, 0, LIST_ROOM, untouched), "%s: these leave the lists as they were", name);
    check(prepare(f, 250, 9, lent(&own, 10, 10)) == 0, "%s: preparing: c+1 places are enough", name);
    check(are_from(&own, 10, LIST_ROOM, untouched), "%s: places after c+1 stay", name);
    check(prepare(f, 250, top, lent(&own, top + 1, top + 1)) == 0, "%s: preparing: the top's places", name);
    check(are_from(&own, top + 1, LIST_ROOM, untouched), "%s: places after the top's stay", name);
}

static void check_quick_refusals(const struct fluid *f)
{
    static struct own_lists own;
    const char *name = f->name;
    uint64_t top = f->top;
    struct lists lists = lent(&own, top + 1, top + 1);
    check(found_nothing(2, quick_density(f, NAN, 0, 0, BELOW, lists)), "%s: quick: 2 first", name);
    check(found_nothing(3, quick_density(f, 500, 0, 0, BELOW, lists)), "%s: quick: 3 before 5", name);
    check(found_nothing(5, quick_density(f, 250, 0.5, 0, BELOW, lists)), "%s: quick: 5 before 6", name);
    lists = lent(&own, top, top + 1);
    check(found_nothing(6, quick_density(f, 250, 1e5, top + 1, BELOW, lists)), "%s: quick: 6 before 7", name);
    check(found_nothing(7, quick_density(f, 250, 1e5, top, ABOVE, lists)),
          "%s: quick: 7 where the list not read is short", name);
    lists = lent(&own, top + 1, top + 1);
    check(found_nothing(8, quick_density(f, 250, 1e5, top, BELOW, lists)), "%s: quick: unprepared, 8", name);
    for (size_t j = 0; j < LIST_ROOM; j++)
        own.G[j] = 1e9;
    check(found_nothing(16, quick_density(f, 250, 9e6, top, BELOW, lists)),
          "%s: quick: lists of another sort, 16", name);
}

static bool greatest_and_least(const struct fluid *f, const struct own_lists *own, double T)
{
    double greatest = -INFINITY, least = INFINITY;
    for (size_t j = 0; j <= f->top; j++) {
        greatest = fmax(greatest, property_at(f, PRESSURE, T, (double)j / 128).value);
        least = fmin(least, property_at(f, PRESSURE, T, (double)(f->top - j) / 128).value);
        if (own->G[j] != greatest || own->L[f->top - j] != least)
            return false;
    }
    return true;
}

static bool same_found(struct found a, struct found b)
{
    return a.code == b.code && same_bits(a.rho, b.rho) && a.word == b.word;
}

/* 01: "the pressure at k is ≤ P and at k+1 is > P". */
static bool at_neighbours(const struct fluid *f, double T, double P, double rho)
{
    return property_at(f, PRESSURE, T, rho).value <= P
           && property_at(f, PRESSURE, T, rho + 0x1p-30).value > P;
}

static void check_isotherm(const struct fluid *f, double T)
{
    static struct own_lists own;
    struct lists lists = lent(&own, f->top + 1, f->top + 1);
    check(prepare(f, T, f->top, lists) == ANSWERED, "%s: %g K is prepared", f->name, T);
    check(greatest_and_least(f, &own, T), "%s: G and L of %g K are the greatest and the least", f->name, T);
    unsigned differing = 0, off = 0, fluids = 0;
    for (int i = 0; i < 200; i++) {
        enum side side = i % 2 ? ABOVE : BELOW;
        double P = f->P.greatest / 100 * (i / 2 + 1);
        struct found quick = quick_density(f, T, P, f->top, side, lists);
        struct found plain = plain_density(f, T, P, f->top, side);
        differing += !same_found(quick, plain);
        off += plain.code != ANSWERED || !at_neighbours(f, T, P, plain.rho);
        fluids += plain.word == FLUID;
    }
    check(differing == 0, "%s, %g K: quick is plain, %u of 200 differ", f->name, T, differing);
    check(off == 0, "%s, %g K: %u of 200 densities are not at neighbours", f->name, T, off);
    check(fluids == (T >= f->Tc ? 200 : 0), "%s, %g K: %u of 200 words are fluid", f->name, T, fluids);
}

/* The pressure of a printed row gives its density back. */
static void check_known_density(const struct fluid *f, double T, double P, enum side side, double rho)
{
    struct found found = plain_density(f, T, P, f->top, side);
    check(found.code == ANSWERED && fabs(found.rho - rho) < 1e-6, "%s: %g K, %g Pa: %g, %.8g", f->name, T, P,
          rho, found.rho);
}

/* Below Tc a vapour is found at a pressure that a liquid has too. */
static void check_vapour(const struct fluid *f)
{
    struct found vapour = plain_density(f, 400, 500000, f->top, BELOW);
    check(vapour.code == ANSWERED && vapour.rho < 0.2, "%s: 400 K, 0.5 MPa from below: a gas, %g", f->name,
          vapour.rho);
}

static void check_searches_of(const struct fluid *f)
{
    uint64_t steps = f->top * STEPS_IN_CELL;
    check(same_bits(density_of_step(steps), f->rho.greatest), "%s: the top's last step is its density", f->name);
    check_plain_refusals(f, BELOW);
    check_plain_refusals(f, ABOVE);
    check_preparation_refusals(f);
    check_quick_refusals(f);
    check_vapour(f);
    check_isotherm(f, f->T.least);
    check_isotherm(f, 400);
    check_isotherm(f, nextafter(f->Tc, 0));
    check_isotherm(f, f->Tc);
    check_isotherm(f, nextafter(f->Tc, INFINITY));
    check_isotherm(f, f->T.greatest);
}

/* A state, and the word that it is known by. */
struct named_state {
    const struct fluid *fluid;
    double T, P;
    enum side side;
    double least_rho, greatest_rho;
    enum word word;
};

static const struct named_state named_states[] = {
    { &r245ca, 300, 1e5, BELOW, 0.04, 0.05, VAPOUR },
    { &r245ca, 300, 1e5, ABOVE, 10.3, 10.4, LIQUID },
    /* above saturation, and still searched from below; below it, and searched from above */
    { &r245ca, 300, 1e6, BELOW, 10.3, 10.4, LIQUID },
    { &r245ca, 440, 1e6, ABOVE, 0.3, 0.31, VAPOUR },
    { &r245fa, 300, 1e6, BELOW, 9.9, 10, LIQUID },
    { &r245fa, 400, 5e5, ABOVE, 0.16, 0.17, VAPOUR },
    /* between the two critical temperatures */
    { &r245ca, 430, 1e6, BELOW, 0.3, 0.33, VAPOUR },
    { &r245fa, 430, 1e6, BELOW, 0.3, 0.33, FLUID },
    /* just below Tc, within 1e-4 of the critical density; then at R-245fa's */
    { &r245ca, 0x1.bf91eb851a6cdp+8, 0x1.e10c23e8d30dcp+21, BELOW, 3.9199, 3.92, VAPOUR },
    { &r245ca, 0x1.bf91eb851a6cdp+8, 0x1.e10c23e8d30dcp+21, ABOVE, 3.9199, 3.92, VAPOUR },
    { &r245ca, 0x1.bf91eb7457c0bp+8, 0x1.e10c235dad89p+21, BELOW, 3.92, 3.9201, LIQUID },
    { &r245ca, 0x1.bf91eb7457c0bp+8, 0x1.e10c235dad89p+21, ABOVE, 3.92, 3.9201, LIQUID },
    { &r245fa, 0x1.ab028f5c18865p+8, 0x1.bdad9db5c7dfcp+21, BELOW, 3.875, 3.875, LIQUID },
    { &r245fa, 0x1.ab028f5c18865p+8, 0x1.bdad9db5c7dfcp+21, ABOVE, 3.875, 3.875, LIQUID },
};

static void check_named(const struct named_state *s)
{
    struct found found = plain_density(s->fluid, s->T, s->P, s->fluid->top, s->side);
    check(s->least_rho <= found.rho && found.rho <= s->greatest_rho && found.word == s->word,
          "%s: %g K, %g Pa %s: %.10g, word %d", s->fluid->name, s->T, s->P,
          s->side == BELOW ? "from below" : "from above", found.rho, found.word);
}

void check_density(void)
{
    for (size_t i = 0; i < sizeof named_states / sizeof *named_states; i++)
        check_named(&named_states[i]);
    for (uint64_t i = 0; i < FLUIDS; i++)
        check_searches_of(fluid_numbered(i));
    /* 003, Table 3, and 001, Table 7 */
    check_known_density(&r245ca, 400, 2017058, ABOVE, 8);
    check_known_density(&r245fa, 400, 33147250, ABOVE, 9);
    check_known_density(&r245fa, 400, 1352988, BELOW, 0.5);
}
