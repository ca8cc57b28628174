/* Bit patterns and fluids at random. */
#include "draw.h"

#include "../independent/bits.h"
#include "../special.h"
#include "../splitmix.h"

uint64_t any_bits(struct generator *g)
{
    return splitmix(&g->state);
}

uint64_t below(struct generator *g, uint64_t count)
{
    return splitmix(&g->state) % count;
}

uint64_t uniform(struct generator *g, double least, double greatest)
{
    return bits_of(splitmix_uniform(&g->state, least, greatest));
}

/* Patterns of positive numbers rise with the numbers, so even patterns are even in the logarithm. */
uint64_t log_uniform(struct generator *g, double least, double greatest)
{
    return bits_of(least) + below(g, bits_of(greatest) - bits_of(least) + 1);
}

uint64_t either_sign(struct generator *g, uint64_t bits)
{
    return bits ^ (any_bits(g) & SIGN_BIT);
}

uint64_t nearby(struct generator *g, double number)
{
    return bits_of(number) + below(g, 9) - 4;
}

uint64_t closing_in(struct generator *g, double number, double distance)
{
    double scale = distance / (double)((uint64_t)1 << below(g, 40));
    return bits_of(number + splitmix_uniform(&g->state, -scale, scale));
}

static uint64_t any_nan(struct generator *g)
{
    uint64_t payload = any_bits(g) >> 12;
    return either_sign(g, 0x7ff0000000000000 | (payload == 0 ? 1 : payload));
}

uint64_t special(struct generator *g)
{
    return below(g, 4) == 0 ? any_nan(g) : special_patterns[below(g, SPECIAL_PATTERNS)];
}

const struct fluid *any_fluid(struct generator *g)
{
    return fluid_numbered(below(g, FLUIDS));
}
