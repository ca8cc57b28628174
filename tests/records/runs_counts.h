/* What the comparison of runs has met, and what of it went wrong. */
#ifndef RUNS_COUNTS_H
#define RUNS_COUNTS_H

#include "runs_claims.h"
#include "runs_drawn.h"
#include "runs_tally.h"

/* What a record's code and bytes are compared with. */
enum { INDEPENDENT, SINGLE_CALL, SOURCES };

/* By shape and rooms; by shape and what is returned; by the bytes of the piece at the end; by the records in runs. */
struct counts {
    struct tally runs[SHAPES][OUT_ROOMS][CODE_ROOMS], returned[SHAPES][CODES], pieces[RECORD_BYTES];
    struct tally records[SOURCES][FLUIDS + 1][CODES];
    struct claims claims;
    uint64_t shown;
};

/* The line of the codes that were met. */
void show_codes(const struct counts *counts);

/* A line for each check that has failed, and the sum of all. */
struct sum count_all(const struct counts *counts);

#endif
