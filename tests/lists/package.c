/* What the package answers over the lent places, and what it leaves in them. */
#include "bench.h"
#include "question.h"

#include "../independent/bits.h"

#include <math.h>

enum { FROM_BELOW, FROM_ABOVE };

/* Copied as bytes, so that a NaN keeps its payload. */
static struct lent lend(uint8_t *end, const uint64_t *held, uint64_t asked)
{
    size_t places = lent_places(asked);
    void *list = end - places * sizeof *held;
    memcpy(list, held, places * sizeof *held);
    return (struct lent){ list, places };
}

static void take_back(uint64_t *held, struct lent lent)
{
    memcpy(held, lent.list, lent.places * sizeof *held);
}

/* A refusal's density is a NaN, and which one is not said. */
static uint64_t density_bits(double density)
{
    return isnan(density) ? NO_BITS : bits_of(density);
}

static void ask_plain(const struct list_question *question, uint32_t side, struct list_reply *reply)
{
    double T = number_of(question->T), P = number_of(question->P);
    size_t c = question->c;
    reply->code = bench_plain_code(question->fluid, T, P, c, side);
    reply->bits = density_bits(bench_plain(question->fluid, T, P, c, side));
    reply->word = bench_plain_word(question->fluid, T, P, c, side);
}

/* A preparation has no density and no word. */
static void ask_prepare(const struct list_question *question, struct lent G, struct lent L,
                        struct list_reply *reply)
{
    reply->code = bench_prepare(question->fluid, number_of(question->T), question->c, G.list, G.places, L.list,
                                L.places);
    reply->bits = NO_BITS;
    reply->word = 0;
}

static void ask_quick(const struct list_question *question, uint32_t side, struct lent G,
                      struct lent L, struct list_reply *reply)
{
    double T = number_of(question->T), P = number_of(question->P);
    size_t c = question->c;
    uint32_t fluid = question->fluid;
    reply->code = bench_quick_code(fluid, T, P, c, side, G.list, G.places, L.list, L.places);
    reply->bits = density_bits(bench_quick(fluid, T, P, c, side, G.list, G.places, L.list, L.places));
    reply->word = bench_quick_word(fluid, T, P, c, side, G.list, G.places, L.list, L.places);
}

/*
 * Places that are not lent are never handed over, and a plain search takes no list at all: such places stand in the reply as in
 * the question. The lent ones are read back from where the package had them; beyond them is memory that may not be touched.
 */
void ask_package(const struct lent_memory *memory, const struct list_question *question,
                 struct list_reply *reply)
{
    struct lent G = lend(memory->G_end, question->held.G, question->lent_G);
    struct lent L = lend(memory->L_end, question->held.L, question->lent_L);
    switch (question->call) {
    case PLAIN_BELOW:
        ask_plain(question, FROM_BELOW, reply);
        break;
    case PLAIN_ABOVE:
        ask_plain(question, FROM_ABOVE, reply);
        break;
    case PREPARE:
        ask_prepare(question, G, L, reply);
        break;
    case QUICK_BELOW:
        ask_quick(question, FROM_BELOW, G, L, reply);
        break;
    default:
        ask_quick(question, FROM_ABOVE, G, L, reply);
    }
    reply->held = question->held;
    take_back(reply->held.G, G);
    take_back(reply->held.L, L);
}
