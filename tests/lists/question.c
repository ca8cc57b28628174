/* Random questions over lists: prepared ones, ones of another temperature or fluid, spoilt ones, and garbage. */
#include "question.h"

#include "../generator/draw.h"
#include "../generator/families.h"
#include "../independent/bits.h"

/* A fluid's number; one in thirty-two is none's, though it may be one's in fewer bits. */
static uint32_t fluid_number(struct generator *g)
{
    static const uint32_t unknown[] = {
        FLUIDS, FLUIDS + 1, 99, 1 << 8, 1 << 16 | 1, UINT32_C(1) << 31, UINT32_MAX,
    };
    return (uint32_t)(below(g, 32) ? below(g, FLUIDS) : unknown[below(g, sizeof unknown / sizeof *unknown)]);
}

/* The fluid that the other inputs are drawn for, also where the number is none's. */
static const struct fluid *drawn_for(struct generator *g, uint32_t number)
{
    const struct fluid *fluid = fluid_numbered(number);
    return fluid != NULL ? fluid : any_fluid(g);
}

/* Cells up to a fluid's top, and the tops of others. */
static uint64_t cells(struct generator *g, const struct fluid *fluid)
{
    switch (below(g, 12)) {
    case 0:
        return below(g, 4) ? any_fluid(g)->top + 1 : 0;
    case 1:
        return any_bits(g) >> below(g, 64);
    case 2:
    case 3:
    case 4:
        return 1 + below(g, 8);
    case 5:
    case 6:
    case 7:
        return 1 + below(g, fluid->top);
    case 8:
        return any_fluid(g)->top;
    default:
        return fluid->top;
    }
}

/* How many places are lent for c cells: mostly enough of them. */
static uint64_t lent(struct generator *g, uint64_t c)
{
    switch (below(g, 16)) {
    case 0:
        return c;
    case 1:
        return below(g, c + 1 == 0 ? 1 : c + 1);
    case 2:
        return any_bits(g) >> below(g, 64);
    case 3:
    case 4:
    case 5:
        return c + 1;
    default:
        return PLACES;
    }
}

static void hold_garbage(struct generator *g, struct held *held)
{
    for (int i = 0; i < PLACES; i++) {
        held->G[i] = below(g, 4) ? any_bits(g) : special(g);
        held->L[i] = below(g, 4) ? any_bits(g) : special(g);
    }
}

/* Pressures in the range of questions, in no order. */
static void hold_pressures(struct generator *g, struct held *held, struct range P)
{
    for (int i = 0; i < PLACES; i++) {
        held->G[i] = log_uniform(g, P.least, P.greatest);
        held->L[i] = log_uniform(g, P.least, P.greatest);
    }
}

static void hold_everywhere(struct held *held, uint64_t bits)
{
    for (int i = 0; i < PLACES; i++)
        held->G[i] = held->L[i] = bits;
}

/* From one to 1,024 places of what was held become NaN, infinite or anything; place c, which is read first, now and then. */
static void spoil(struct generator *g, struct held *held, uint64_t c)
{
    for (uint64_t left = (uint64_t)1 << below(g, 11); left > 0; left--) {
        uint64_t place = below(g, 256) == 0 && c < PLACES ? c : below(g, PLACES);
        held->G[place] = below(g, 2) ? special(g) : any_bits(g);
        held->L[place] = below(g, 2) ? special(g) : any_bits(g);
    }
}

/* What any fluid's preparation leaves at T, up to its own top where that is lower. */
static void hold_any_fluids(struct generator *g, struct held *held, double T, uint64_t c)
{
    const struct fluid *fluid = any_fluid(g);
    hold_prepared(held, fluid, T, c < fluid->top ? c : fluid->top);
}

static void hold_something(struct generator *g, struct list_question *question,
                           const struct fluid *fluid)
{
    struct held *held = &question->held;
    double T = number_of(question->T);
    hold_garbage(g, held);
    switch (below(g, 12)) {
    case 0:
        break;
    case 1:
        hold_everywhere(held, special(g));
        break;
    case 2:
        hold_pressures(g, held, fluid->P);
        break;
    case 3:
        hold_prepared(held, fluid, number_of(temperature(g, fluid)), question->c);
        break;
    case 4:
    case 5:
        hold_any_fluids(g, held, T, question->c);
        break;
    case 6:
    case 7:
        hold_prepared(held, fluid, T, question->c);
        spoil(g, held, question->c);
        break;
    default:
        hold_prepared(held, fluid, T, question->c);
    }
}

/* Inputs of which any may be refused. */
static void ask_anything(struct generator *g, struct list_question *question,
                         const struct fluid *fluid)
{
    if (below(g, 2) == 0)
        g->T_bits = temperature(g, fluid);
    struct question asked = search(g, fluid);
    question->T = below(g, 16) ? asked.first : special(g);
    question->P = asked.second;
    question->c = cells(g, fluid);
    question->lent_G = lent(g, question->c);
    question->lent_L = lent(g, question->c);
}

/* Inputs that the calls permit, so that what the lists hold decides. */
static void ask_permitted(struct generator *g, struct list_question *question,
                          const struct fluid *fluid)
{
    question->T = uniform(g, fluid->T.least, fluid->T.greatest);
    question->P = log_uniform(g, fluid->P.least, fluid->P.greatest);
    question->c = below(g, 2) ? fluid->top : 1 + below(g, fluid->top);
    question->lent_G = question->lent_L = PLACES;
}

/* States about the critical point, where the word changes. */
static void ask_critical(struct generator *g, struct list_question *question, const struct fluid *fluid)
{
    struct question asked = critical_search(g, fluid);
    question->T = asked.first;
    question->P = asked.second;
    question->c = fluid->top;
    question->lent_G = question->lent_L = PLACES;
}

void next_list_question(struct generator *g, struct list_question *question)
{
    question->call = below(g, LIST_CALLS);
    question->fluid = fluid_number(g);
    const struct fluid *fluid = drawn_for(g, question->fluid);
    switch (below(g, 5)) {
    case 0:
        ask_critical(g, question, fluid);
        break;
    case 1:
    case 2:
        ask_permitted(g, question, fluid);
        break;
    default:
        ask_anything(g, question, fluid);
    }
    hold_something(g, question, fluid);
}
