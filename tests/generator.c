/* Takes a number at random and asks its call of its fluid. */
#include "generator.h"

#include "generator/draw.h"
#include "generator/families.h"

/* No fluid's number, and known ones where a number is cut to 8, 16 or 32 bits. */
static uint64_t unknown_fluid(struct generator *g)
{
    static const uint64_t picked[] = {
        FLUIDS,
        FLUIDS + 1,
        99,
        (uint64_t)1 << 8,
        (uint64_t)1 << 16 | 1,
        (uint64_t)1 << 31,
        (uint64_t)1 << 32,
        (uint64_t)1 << 32 | 1,
        (uint64_t)1 << 40,
        (uint64_t)1 << 57,
        (uint64_t)1 << 57 | 1,
        UINT64_MAX / FLUID_STRIDE - 1,
    };
    return picked[below(g, sizeof picked / sizeof *picked)];
}

/* Any call or none of any fluid or none. */
static uint64_t composed(struct generator *g)
{
    uint64_t fluid = below(g, 2) ? below(g, FLUIDS) : unknown_fluid(g);
    uint64_t call = below(g, 2) ? below(g, FLUID_STRIDE)
                                : known_calls[below(g, known_calls_count)].number;
    return fluid * FLUID_STRIDE + call;
}

static uint64_t any_number(struct generator *g)
{
    static const uint64_t picked[] = {
        0,
        4,
        9,
        19,
        23,
        29,
        36,
        99,
        101,
        102,
        103,
        (uint64_t)1 << 8 | 1,
        (uint64_t)1 << 8 | 10,
        (uint64_t)1 << 16 | 2,
        (uint64_t)1 << 32 | 1,
        (uint64_t)1 << 32 | 18,
        (uint64_t)1 << 40,
        (uint64_t)1 << 63 | 3,
        (uint64_t)1 << 63 | 20,
        UINT64_MAX,
    };
    switch (below(g, 4)) {
    case 0:
        return any_bits(g);
    case 1:
        return below(g, 3 * FLUID_STRIDE);
    case 2:
        return picked[below(g, sizeof picked / sizeof *picked)];
    default:
        return composed(g);
    }
}

static uint64_t unknown_number(struct generator *g)
{
    uint64_t number = any_number(g);
    while (is_known_number(number))
        number = any_number(g);
    return number;
}

/* The two numbers are often such that a known call of a known fluid would answer. */
static struct question unknown(struct generator *g)
{
    const struct fluid *fluid = any_fluid(g);
    uint64_t first = below(g, 2) ? temperature(g, fluid) : any_bits(g);
    uint64_t second = below(g, 2) ? density(g, fluid) : any_bits(g);
    return (struct question){ .call = unknown_number(g), .first = first, .second = second };
}

static struct question arguments(struct generator *g, const struct call *call,
                                 const struct fluid *fluid)
{
    uint64_t first;
    switch (call->family) {
    case ELEMENTARY:
        first = elementary_argument(g, call->number);
        return (struct question){ .first = first, .second = any_bits(g) };
    case ESTIMATE:
        first = estimate_temperature(g, fluid);
        return (struct question){ .first = first, .second = any_bits(g) };
    case PROPERTY:
        return state(g, fluid);
    case PLAIN_WORD:
        return below(g, 2) ? critical_search(g, fluid) : search(g, fluid);
    default:
        return search(g, fluid);
    }
}

struct generator generator_of(uint64_t seed, const uint64_t *numbers, size_t numbers_count)
{
    struct generator g = { .state = seed, .numbers = numbers, .numbers_count = numbers_count };
    g.T_bits = temperature(&g, any_fluid(&g));
    return g;
}

struct question next_question(struct generator *g)
{
    uint64_t number = g->numbers[below(g, g->numbers_count)];
    if (number == UNKNOWN_NUMBERS)
        return unknown(g);
    struct question question = arguments(g, known_call(number), fluid_asked(number));
    question.call = number;
    return question;
}
