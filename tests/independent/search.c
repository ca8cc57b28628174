/* 01, "Density from pressure": plain and quick, preparing, and in the cell. */
#include "search.h"

#include <stdbool.h>

static struct outcome at_end(const struct pressures *p, uint64_t j)
{
    return p->at_step(p->of, j * STEPS_IN_CELL);
}

static struct place found(uint64_t number)
{
    return (struct place){ .code = ANSWERED, .number = number };
}

static struct place not_found(uint64_t code)
{
    return (struct place){ .code = code };
}

static struct place cell_from_below(const struct pressures *p, double P, uint64_t c)
{
    for (uint64_t j = 1; j <= c; j++) {
        struct outcome pj = at_end(p, j);
        if (pj.code != ANSWERED)
            return not_found(pj.code);
        if (pj.value > P)
            return found(j - 1);
    }
    return not_found(REFUSED_NOT_REACHED);
}

static struct place cell_from_above(const struct pressures *p, double P, uint64_t c)
{
    struct outcome pc = at_end(p, c);
    if (pc.code != ANSWERED)
        return not_found(pc.code);
    if (pc.value <= P)
        return not_found(REFUSED_NOT_REACHED);
    for (uint64_t j = c; j-- > 0;) {
        struct outcome pj = at_end(p, j);
        if (pj.code != ANSWERED)
            return not_found(pj.code);
        if (pj.value <= P)
            return found(j);
    }
    /* Not with the equation: p(0) is 0 and P at least 1. */
    return not_found(REFUSED_NOT_REACHED);
}

struct place plain_cell(const struct pressures *p, double P, uint64_t c, enum side side)
{
    return side == BELOW ? cell_from_below(p, P, c) : cell_from_above(p, P, c);
}

struct place step_in_cell(const struct pressures *p, double P, uint64_t cell)
{
    uint64_t lower = cell * STEPS_IN_CELL;
    uint64_t upper = lower + STEPS_IN_CELL;
    for (int halving = 0; halving < HALVINGS; halving++) {
        uint64_t middle = lower + (upper - lower) / 2;
        struct outcome pm = p->at_step(p->of, middle);
        if (pm.code != ANSWERED)
            return not_found(pm.code);
        if (pm.value <= P)
            lower = middle;
        else
            upper = middle;
    }
    return upper == lower + 1 ? found(lower) : not_found(REFUSED_HALVINGS);
}

/* The cell of the list's crossing, place c being > P. */
static uint64_t crossing(const double *list, double P, uint64_t c)
{
    uint64_t a = 0, b = c;
    while (b - a > 1) {
        uint64_t middle = (a + b) / 2;
        if (list[middle] > P)
            b = middle;
        else
            a = middle;
    }
    return a;
}

struct place quick_cell(const struct pressures *p, double P, uint64_t c, const double *list)
{
    if (!(list[c] > P))
        return not_found(REFUSED_NOT_REACHED);
    uint64_t a = crossing(list, P, c);
    struct outcome pa = at_end(p, a);
    struct outcome pb = at_end(p, a + 1);
    if (pa.code != ANSWERED)
        return not_found(pa.code);
    if (pb.code != ANSWERED)
        return not_found(pb.code);
    bool enclosed = pa.value <= P && P < pb.value;
    return enclosed ? found(a) : not_found(REFUSED_NOT_ENCLOSED);
}

/* 01: "a preparation refused with 12 leaves +0 in the first c+1 places of both lists". */
static void clear(uint64_t c, double *G, double *L)
{
    for (uint64_t j = 0; j <= c; j++)
        G[j] = L[j] = 0;
}

/* 01: "Of equal ones either list keeps the entry of smaller index." */
static void keep_greatest_so_far(uint64_t c, double *G)
{
    for (uint64_t j = 1; j <= c; j++)
        if (!(G[j] > G[j - 1]))
            G[j] = G[j - 1];
}

static void keep_least_from_here(uint64_t c, double *L)
{
    for (uint64_t j = c; j-- > 0;)
        if (!(L[j] <= L[j + 1]))
            L[j] = L[j + 1];
}

uint64_t fill_lists(const struct pressures *p, uint64_t c, double *G, double *L)
{
    for (uint64_t j = 0; j <= c; j++) {
        struct outcome pj = at_end(p, j);
        if (pj.code != ANSWERED) {
            clear(c, G, L);
            return pj.code;
        }
        G[j] = L[j] = pj.value;
    }
    keep_greatest_so_far(c, G);
    keep_least_from_here(c, L);
    return ANSWERED;
}
