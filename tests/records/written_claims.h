/* Lengths and places that no memory has: nothing is touched but the record's 18 bytes, whatever a caller claims. */
#ifndef WRITTEN_CLAIMS_H
#define WRITTEN_CLAIMS_H

#include "runs_tally.h"
#include "written_drawn.h"

enum { GREAT_LENGTHS = 16, GREAT_PLACES = 24 };

/* Of each great place those in buffers that are there; of each great length those that are refused, and those written. */
struct claims {
    struct tally places[GREAT_PLACES], refused[GREAT_LENGTHS], written[GREAT_LENGTHS];
};

void compare_claims(struct generator *g, const struct written_memory *memory, struct claims *claims);
void count_claims(const struct claims *claims, struct sum *sum);

#endif
