/* Lengths that no memory has: nothing is touched but the pair's 16 bytes, whatever a caller claims. */
#ifndef CLAIMS_H
#define CLAIMS_H

#include "../records/runs_tally.h"
#include "drawn.h"

enum { GREAT_LENGTHS = 18 };

/* Of each great length those that are refused, and those written. */
struct claims {
    struct tally refused[GREAT_LENGTHS], written[GREAT_LENGTHS];
};

void compare_claims(struct generator *g, const struct memory *memory, struct claims *claims);
void count_claims(const struct claims *claims, struct sum *sum);

#endif
