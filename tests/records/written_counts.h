/* What the comparison of written records has met, and what of it went wrong. */
#ifndef WRITTEN_COUNTS_H
#define WRITTEN_COUNTS_H

#include "runs_tally.h"
#include "written_claims.h"
#include "written_drawn.h"

/* Which refusals apply, each by itself: what is returned is the first of them. */
enum { KIND_UNKNOWN = 1, FLUID_UNKNOWN = 2, NO_ROOM = 4, APPLYING = 8 };

/*
 * By what was chosen; by the kind and the fluid, known or not, and what is returned; by the refusals that apply. Of each known
 * kind and fluid what was written and read, and what was read and written. Every place of every buffer, every small kind and
 * fluid; all marks.
 */
struct counts {
    struct tally choices[KINDS][FLUID_NUMBERS][SPOTS], codes[KNOWN_KINDS + 1][FLUIDS + 1][CODES], applying[APPLYING];
    struct tally read[KNOWN_KINDS][FLUIDS], rewritten[KNOWN_KINDS][FLUIDS];
    struct tally places, small_kinds, small_fluids, marks;
    struct claims claims;
    uint64_t shown;
};

/* The line of the codes that were met. */
void show_codes(const struct counts *counts);

/* A line for each check that has failed, and the sum of all. */
struct sum count_all(const struct counts *counts);

#endif
