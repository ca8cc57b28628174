/* Arguments of exp, ln and root. */
#include "../independent/bits.h"
#include "draw.h"
#include "families.h"

static uint64_t exp_argument(struct generator *g)
{
    switch (below(g, 10)) {
    case 0:
        return either_sign(g, nearby(g, 700));
    case 1:
        return special(g);
    case 2:
        return any_bits(g);
    case 3:
        return either_sign(g, log_uniform(g, 0x1p-1074, 700));
    case 4:
        return either_sign(g, log_uniform(g, 0x1p-60, 1));
    case 5:
        return bits_of((double)below(g, 1403) - 701);
    case 6:
        return uniform(g, -1, 1);
    default:
        return uniform(g, -700, 700);
    }
}

/* m = 0.75, 1 and 1.5 are where x = m·2ᵉ is split, or the result changes sign. */
static uint64_t ln_split_argument(struct generator *g)
{
    static const double splits[] = { 0.75, 1, 1.5 };
    uint64_t bits = nearby(g, splits[below(g, 3)]);
    uint64_t exponent = below(g, 123);
    return bits + (exponent << 52) - ((uint64_t)61 << 52);
}

static uint64_t ln_argument(struct generator *g)
{
    switch (below(g, 10)) {
    case 0:
        return nearby(g, below(g, 2) ? 0x1p-60 : 0x1p60);
    case 1:
        return special(g);
    case 2:
        return any_bits(g);
    case 3:
        return ln_split_argument(g);
    case 4:
        return either_sign(g, uniform(g, 0, 16));
    case 5:
        return closing_in(g, 1, 0.5);
    case 6:
        return nearby(g, 1);
    default:
        return log_uniform(g, 0x1p-60, 0x1p60);
    }
}

static uint64_t root_argument(struct generator *g)
{
    switch (below(g, 10)) {
    case 0:
        return nearby(g, below(g, 2) ? 1 : 1e8);
    case 1:
        return special(g);
    case 2:
        return any_bits(g);
    case 3: {
        double side = 1 + (double)below(g, 10000);
        return nearby(g, side * side);
    }
    case 4:
        return either_sign(g, log_uniform(g, 0x1p-1074, 1e8));
    case 5:
        return uniform(g, 0, 1000);
    case 6:
        return uniform(g, 1, 1e8);
    default:
        return log_uniform(g, 1, 1e8);
    }
}

uint64_t elementary_argument(struct generator *g, uint64_t call)
{
    switch (call) {
    case 1:
        return exp_argument(g);
    case 2:
        return ln_argument(g);
    default:
        return root_argument(g);
    }
}
