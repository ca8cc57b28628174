/*
 * The pairs of every whole kelvin below Tc, stored: the same bits on every machine. A line has the fluid's number, T in K, how
 * many rounds there were, the bits of both densities, and the vapour's pressure in Pa.
 */
#ifndef KELVINS_H
#define KELVINS_H

#include "../records/runs_tally.h"
#include "drawn.h"

/* Of each fluid the lines that the independent implementation writes, and the pairs that the package does; no line is left. */
struct kelvins {
    struct tally stored[FLUIDS], written[FLUIDS], end;
};

/* Whether the file could be read. */
bool compare_kelvins(const struct memory *memory, const char *file, struct kelvins *kelvins);
void count_kelvins(const struct kelvins *kelvins, struct sum *sum);

/* All lines, as they should be stored. */
void write_kelvins(FILE *file);

#endif
