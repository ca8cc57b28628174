/* What the independent implementation answers over the lent places. */
#include "question.h"

#include "../independent/bits.h"

struct held_numbers {
    double G[PLACES], L[PLACES];
};

/* Copied as bytes, so that a NaN keeps its payload. */
static void take_held(struct held_numbers *numbers, const struct held *held)
{
    memcpy(numbers->G, held->G, sizeof numbers->G);
    memcpy(numbers->L, held->L, sizeof numbers->L);
}

static void give_held(struct held *held, const struct held_numbers *numbers)
{
    memcpy(held->G, numbers->G, sizeof held->G);
    memcpy(held->L, numbers->L, sizeof held->L);
}

static struct lists lend(struct held_numbers *numbers, uint64_t lent_G, uint64_t lent_L)
{
    return (struct lists){
        .G = { numbers->G, lent_places(lent_G) },
        .L = { numbers->L, lent_places(lent_L) },
    };
}

void hold_prepared(struct held *held, const struct fluid *fluid, double T, uint64_t c)
{
    static struct held_numbers numbers;
    take_held(&numbers, held);
    prepare(fluid, T, c, lend(&numbers, PLACES, PLACES));
    give_held(held, &numbers);
}

static struct found no_density(uint64_t code)
{
    return (struct found){ .code = code, .word = NO_WORD };
}

static struct found outcome(const struct list_question *question, struct lists lists)
{
    const struct fluid *fluid = fluid_numbered(question->fluid);
    double T = number_of(question->T), P = number_of(question->P);
    uint64_t c = question->c;
    if (fluid == NULL)
        return no_density(REFUSED_UNKNOWN_FLUID);
    switch (question->call) {
    case PLAIN_BELOW:
        return plain_density(fluid, T, P, c, BELOW);
    case PLAIN_ABOVE:
        return plain_density(fluid, T, P, c, ABOVE);
    case PREPARE:
        return no_density(prepare(fluid, T, c, lists));
    case QUICK_BELOW:
        return quick_density(fluid, T, P, c, BELOW, lists);
    default:
        return quick_density(fluid, T, P, c, ABOVE, lists);
    }
}

void answer_list_question(const struct list_question *question, struct list_reply *reply)
{
    static struct held_numbers numbers;
    take_held(&numbers, &question->held);
    struct found found = outcome(question, lend(&numbers, question->lent_G, question->lent_L));
    reply->code = found.code;
    reply->word = word_number(found.word);
    reply->bits = found.word == NO_WORD ? NO_BITS : bits_of(found.rho);
    give_held(&reply->held, &numbers);
}
