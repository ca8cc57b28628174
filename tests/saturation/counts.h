/* What the comparison of saturation pairs has met, and what of it went wrong. */
#ifndef COUNTS_H
#define COUNTS_H

#include "../independent/refusals.h"
#include "claims.h"
#include "kelvins.h"
#include "reasons.h"
#include "trials.h"

/*
 * Of the proposer: by where T is from; by the fluid, known or not, and what is returned; by the output's length; what the
 * package's own judge says of what is handed on; and how many rounds there were. Of the judge: by what the pair is; by the fluid
 * and what is returned; by the one test that a pair fails.
 */
struct counts {
    struct tally warmths[WARMTHS], proposed[FLUIDS + 1][CODES], lengths[LONGEST_OUTPUT + 1], own[FLUIDS];
    uint64_t rounds[FLUIDS][MOST_ROUNDS + 1];
    struct tally sorts[SORTS], judged[FLUIDS + 1][CODES], reasons[FLUIDS][REASONS];
    struct kelvins kelvins;
    struct claims claims;
    uint64_t shown;
};

/* The lines of the codes, the rounds and the reasons that were met. */
void show_met(const struct counts *counts);

/* A line for each check that has failed, and the sum of all. */
struct sum count_all(const struct counts *counts);

#endif
