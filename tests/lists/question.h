/* Questions over given lists, as the independent implementation and the package answer them. */
#ifndef LISTS_QUESTION_H
#define LISTS_QUESTION_H

#include "../generator.h"
#include "../independent/density.h"

/* PLACES are more than any fluid's top asks for. */
enum { LIST_CALLS = 5, PLACES = 2200 };

enum list_call { PLAIN_BELOW, PLAIN_ABOVE, PREPARE, QUICK_BELOW, QUICK_ABOVE };

/* What stands in both lists, by their places. */
struct held {
    uint64_t G[PLACES], L[PLACES];
};

/* lent_G and lent_L places of the lists are lent, or all where there are not as many. */
struct list_question {
    uint32_t fluid;
    uint64_t call, T, P, c, lent_G, lent_L;
    struct held held;
};

/* The word is 1 for fluid, 2 for vapour, 3 for liquid, and 0 where there is none. */
struct list_reply {
    uint64_t code, bits, word;
    struct held held;
};

/* Where the places end that are lent to the package. */
struct lent_memory {
    uint8_t *G_end, *L_end;
};

void next_list_question(struct generator *g, struct list_question *question);

/* How many places are lent of a list. */
static inline size_t lent_places(uint64_t asked)
{
    return asked < PLACES ? asked : PLACES;
}

/* As the independent implementation answers. */
void answer_list_question(const struct list_question *question, struct list_reply *reply);

/* As the package answers, in that memory. */
void ask_package(const struct lent_memory *memory, const struct list_question *question,
                 struct list_reply *reply);

/* The first c + 1 places as a preparation for the fluid at T leaves them; untouched where it refuses. */
void hold_prepared(struct held *held, const struct fluid *fluid, double T, uint64_t c);

#endif
