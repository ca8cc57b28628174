/* The searches over pressures that are not the equation's. */
#include "../independent/search.h"
#include "check.h"

#include <stddef.h>

enum { TOY_TOP = 4 };

/* Pressures at the ends 0..4; between two ends the lower end's. */
struct toy {
    double at_end[TOY_TOP + 1];
    uint64_t refused_from, refused_to;
};

static const struct toy plain_toy = { .at_end = { 0, 4, 2, 3, 9 } };

static struct outcome toy_pressure(const void *of, uint64_t step)
{
    const struct toy *toy = of;
    if (toy->refused_from <= step && step < toy->refused_to)
        return refused(REFUSED_NOT_FINITE);
    return answered(toy->at_end[step / STEPS_IN_CELL]);
}

static struct pressures pressures_of(const struct toy *toy)
{
    return (struct pressures){ .at_step = toy_pressure, .of = toy };
}

static bool lists_are(const double *wanted, const double *list)
{
    for (size_t j = 0; j <= TOY_TOP; j++)
        if (!same_bits(wanted[j], list[j]))
            return false;
    return true;
}

static void check_lists(const char *name, const struct toy *toy, const double *G_wanted,
                        const double *L_wanted, uint64_t code)
{
    double G[TOY_TOP + 2], L[TOY_TOP + 2];
    for (size_t j = 0; j < TOY_TOP + 2; j++)
        G[j] = L[j] = -77;
    struct pressures p = pressures_of(toy);
    check(fill_lists(&p, TOY_TOP, G, L) == code, "%s: code %d", name, (int)code);
    check(lists_are(G_wanted, G), "%s: G", name);
    check(lists_are(L_wanted, L), "%s: L", name);
    check(G[TOY_TOP + 1] == -77 && L[TOY_TOP + 1] == -77, "%s: places after c+1 stay", name);
}

static void check_preparing(void)
{
    static const double G[] = { 0, 4, 4, 4, 9 }, L[] = { 0, 2, 2, 3, 9 }, zeros[TOY_TOP + 1];
    check_lists("case j", &plain_toy, G, L, ANSWERED);

    /* +0 and −0 are equal: the bits show which entry was kept. */
    static const struct toy ties = { .at_end = { -0.0, 0.0, -0.0, -1, 0.0 } };
    static const double G_ties[] = { -0.0, -0.0, -0.0, -0.0, -0.0 };
    static const double L_ties[] = { -1, -1, -1, -1, 0.0 };
    check_lists("equal ones", &ties, G_ties, L_ties, ANSWERED);
    static const struct toy zero_signs = { .at_end = { 0.0, -0.0, 0.0, -0.0, 0.0 } };
    static const double G_signs[] = { 0.0, 0.0, 0.0, 0.0, 0.0 };
    static const double L_signs[] = { 0.0, -0.0, 0.0, -0.0, 0.0 };
    check_lists("zeros of both signs", &zero_signs, G_signs, L_signs, ANSWERED);

    struct toy refusing = plain_toy;
    refusing.refused_from = 3 * STEPS_IN_CELL;
    refusing.refused_to = 3 * STEPS_IN_CELL + 1;
    check_lists("12 at end 3", &refusing, zeros, zeros, REFUSED_NOT_FINITE);
}

static bool is_cell(uint64_t cell, struct place place)
{
    return place.code == ANSWERED && place.number == cell;
}

/* Plain and quick alike. */
static void check_cell(const char *name, double P, enum side side, uint64_t code, uint64_t cell)
{
    static const double G[] = { 0, 4, 4, 4, 9 }, L[] = { 0, 2, 2, 3, 9 };
    struct pressures p = pressures_of(&plain_toy);
    struct place plain = plain_cell(&p, P, TOY_TOP, side);
    struct place quick = quick_cell(&p, P, TOY_TOP, side == BELOW ? G : L);
    const char *words = side == BELOW ? "from below" : "from above";
    if (code == ANSWERED) {
        check(is_cell(cell, plain), "case %s: P %g %s, cell %d", name, P, words, (int)cell);
        check(is_cell(cell, quick), "case %s, quick", name);
    } else {
        check(plain.code == code, "case %s: P %g %s gets %d", name, P, words, (int)code);
        check(quick.code == code, "case %s, quick", name);
    }
}

static void check_cells(void)
{
    check_cell("k", 3, BELOW, ANSWERED, 0);
    check_cell("k", 3, ABOVE, ANSWERED, 3);
    check_cell("l", 4, BELOW, ANSWERED, 3);
    check_cell("m", 9, BELOW, REFUSED_NOT_REACHED, 0);
    check_cell("m", 9, ABOVE, REFUSED_NOT_REACHED, 0);
    check_cell("n", 2.5, ABOVE, ANSWERED, 2);
}

static void check_quick_refusals(void)
{
    struct pressures p = pressures_of(&plain_toy);
    static const double nan_top[] = { 0, 4, 4, 4, NAN }, nan_inside[] = { 0, NAN, NAN, NAN, 9 };
    static const double wrong[] = { 0, 1, 1, 8, 9 };
    check(quick_cell(&p, 3, TOY_TOP, nan_top).code == REFUSED_NOT_REACHED,
          "quick: a NaN in place c is not > P");
    check(is_cell(3, quick_cell(&p, 3, TOY_TOP, nan_inside)), "quick: a NaN inside is not > P");
    check(quick_cell(&p, 3, TOY_TOP, wrong).code == REFUSED_NOT_ENCLOSED,
          "quick: ends that do not enclose P get 16");
}

static struct toy refusing_at(uint64_t from, uint64_t to)
{
    struct toy toy = plain_toy;
    toy.refused_from = from;
    toy.refused_to = to;
    return toy;
}

static void check_not_finite(void)
{
    static const double G[] = { 0, 4, 4, 4, 9 };
    struct toy first_end = refusing_at(STEPS_IN_CELL, STEPS_IN_CELL + 1);
    struct toy top_end = refusing_at(4 * STEPS_IN_CELL, 4 * STEPS_IN_CELL + 1);
    struct toy middle = refusing_at(1, STEPS_IN_CELL);
    struct toy zero = refusing_at(0, 1);
    struct pressures p1 = pressures_of(&first_end), p4 = pressures_of(&top_end);
    struct pressures pm = pressures_of(&middle), p0 = pressures_of(&zero);
    check(plain_cell(&p1, 3, TOY_TOP, BELOW).code == 12, "12 at a visited end ends it from below");
    check(is_cell(3, plain_cell(&p1, 3, TOY_TOP, ABOVE)), "12 at an end not visited does not");
    check(plain_cell(&p1, 1, TOY_TOP, ABOVE).code == 12, "12 at a visited end ends it from above");
    check(is_cell(0, plain_cell(&p4, 3, TOY_TOP, BELOW)), "12 at end c, not visited from below");
    check(plain_cell(&p4, 3, TOY_TOP, ABOVE).code == 12, "12 at end c ends it from above");
    check(is_cell(0, plain_cell(&p0, 3, TOY_TOP, BELOW)), "end 0 is not visited from below");
    check(quick_cell(&p0, 3, TOY_TOP, G).code == 12, "quick: 12 at end a");
    check(quick_cell(&p1, 3, TOY_TOP, G).code == 12, "quick: 12 at end a+1");
    check(step_in_cell(&pm, 3, 0).code == 12, "12 at a middle ends it");
}

/* Between two ends the toy has the lower end's pressure: the crossing is at the cell's last step. */
static void check_in_cell(void)
{
    struct pressures p = pressures_of(&plain_toy);
    struct place place = step_in_cell(&p, 3, 0);
    check(is_cell(STEPS_IN_CELL - 1, place), "in cell 0 the answer is its last step");
    struct place last = step_in_cell(&p, 3, 3);
    check(is_cell(4 * STEPS_IN_CELL - 1, last), "in cell 3 the answer is its last step");
}

void check_search(void)
{
    check_preparing();
    check_cells();
    check_quick_refusals();
    check_not_finite();
    check_in_cell();
}
