/*
 * Records at random, of all fluids: random bytes; known marks with random bits; states in range, at the ends of the ranges,
 * and damaged.
 */
#include "drawn.h"

#include "../generator/draw.h"
#include "../independent/fluid.h"
#include "../wire.h"
#include "record.h"

/* A mark's second letter. */
enum reading { DENSITY = 'D', FROM_BELOW = 'B', FROM_ABOVE = 'A', NO_SIDE = 'P', NO_READING = 'N' };

static enum reading any_search(struct generator *g)
{
    static const enum reading searches[] = { FROM_BELOW, FROM_ABOVE, NO_SIDE };
    return searches[below(g, sizeof searches / sizeof *searches)];
}

static enum reading any_reading(struct generator *g)
{
    static const enum reading others[] = { DENSITY, NO_READING };
    uint64_t which = below(g, 5);
    return which < 2 ? others[which] : any_search(g);
}

static char first_letter(const struct fluid *fluid)
{
    return fluid == &r245fa ? 'F' : 'T';
}

static struct drawn with_numbers(const struct fluid *fluid, enum reading reading, uint64_t first,
                                 uint64_t second)
{
    struct drawn drawn = { .length = RECORD_BYTES };
    drawn.bytes[0] = (uint8_t)first_letter(fluid);
    drawn.bytes[1] = (uint8_t)reading;
    put_number(drawn.bytes + 2, first);
    put_number(drawn.bytes + 10, second);
    return drawn;
}

static struct drawn random_bytes(struct generator *g)
{
    struct drawn drawn = { .length = below(g, LONGEST_RECORD + 1) };
    for (size_t k = 0; k < LONGEST_RECORD; k++)
        drawn.bytes[k] = (uint8_t)any_bits(g);
    return drawn;
}

static uint64_t in_range_of(struct generator *g, struct range range)
{
    return uniform(g, range.least, range.greatest);
}

static struct drawn state(struct generator *g, const struct fluid *fluid)
{
    uint64_t T = in_range_of(g, fluid->T);
    return with_numbers(fluid, DENSITY, T, in_range_of(g, fluid->rho));
}

/* An end of a range, a step or some beyond it, or a pattern at which number code goes wrong. */
static uint64_t edge(struct generator *g, struct range range)
{
    if (below(g, 2) == 0)
        return special(g);
    return nearby(g, below(g, 2) == 0 ? range.least : range.greatest);
}

/*
 * Edges of both numbers, of any fluid's ranges: what one permits another may not. A search, which the edges seldom keep out
 * of range, is one in thirteen.
 */
static struct drawn edges(struct generator *g, const struct fluid *fluid)
{
    const struct fluid *any = any_fluid(g);
    bool searches = below(g, 13) == 0;
    uint64_t first = below(g, 3) == 0 ? in_range_of(g, any->T) : edge(g, any->T);
    if (searches)
        return with_numbers(fluid, any_search(g), first, edge(g, any->P));
    uint64_t second = below(g, 3) == 0 ? in_range_of(g, any->rho) : edge(g, any->rho);
    return with_numbers(fluid, below(g, 4) == 0 ? NO_READING : DENSITY, first, second);
}

static struct drawn random_numbers(struct generator *g, const struct fluid *fluid)
{
    uint64_t first = any_bits(g);
    return with_numbers(fluid, any_reading(g), first, any_bits(g));
}

/* One bit of a valid record the other way round. */
static struct drawn damaged(struct generator *g, const struct fluid *fluid)
{
    struct drawn drawn = state(g, fluid);
    drawn.bytes[below(g, RECORD_BYTES)] ^= (uint8_t)(1 << below(g, 8));
    return drawn;
}

/* A valid record and bytes after it, or only its front. */
static struct drawn other_length(struct generator *g, const struct fluid *fluid)
{
    struct drawn drawn = state(g, fluid);
    drawn.length = below(g, LONGEST_RECORD + 1);
    return drawn;
}

static struct drawn search(struct generator *g, const struct fluid *fluid)
{
    uint64_t T = in_range_of(g, fluid->T);
    uint64_t pressure = below(g, 2) == 0 ? log_uniform(g, fluid->P.least, fluid->P.greatest)
                                         : in_range_of(g, fluid->P);
    return with_numbers(fluid, any_search(g), T, pressure);
}

struct drawn drawn_record(struct generator *g, uint64_t one_search_in)
{
    const struct fluid *fluid = any_fluid(g);
    if (below(g, one_search_in) == 0)
        return search(g, fluid);
    switch (below(g, 6)) {
    case 0:
        return random_bytes(g);
    case 1:
        return random_numbers(g, fluid);
    case 2:
        return edges(g, fluid);
    case 3:
        return damaged(g, fluid);
    case 4:
        return other_length(g, fluid);
    default:
        return state(g, fluid);
    }
}
