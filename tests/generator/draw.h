/* Bit patterns and fluids at random. */
#ifndef DRAW_H
#define DRAW_H

#include "../generator.h"

uint64_t any_bits(struct generator *g);
uint64_t below(struct generator *g, uint64_t count);
uint64_t uniform(struct generator *g, double least, double greatest);
uint64_t log_uniform(struct generator *g, double least, double greatest);
uint64_t either_sign(struct generator *g, uint64_t bits);

/* The number and its neighbours up to four steps both ways. */
uint64_t nearby(struct generator *g, double number);

/* The number and, ever more often, what is ever closer to it. */
uint64_t closing_in(struct generator *g, double number, double distance);

uint64_t special(struct generator *g);

const struct fluid *any_fluid(struct generator *g);

#endif
