/* Lengths that no memory has: nothing is touched but what the records need, whatever a caller claims. */
#ifndef RUNS_CLAIMS_H
#define RUNS_CLAIMS_H

#include "../generator.h"
#include "runs_asked.h"
#include "runs_tally.h"

/* Great lengths of records, of outputs and of code lists. */
enum { GREAT_RUNS = 32, GREAT_OUTPUTS = 8, GREAT_CODE_LISTS = 9 };

/* Of each great run those that 7 is expected of, and those that 18 is; of a great list those over a few records. */
struct claims {
    struct tally short_list[GREAT_RUNS], too_many[GREAT_RUNS];
    struct tally answered_out[GREAT_OUTPUTS], answered_codes[GREAT_CODE_LISTS];
};

void compare_claims(struct generator *g, const struct run_memory *memory, struct claims *claims);
void count_claims(const struct claims *claims, struct sum *sum);

#endif
