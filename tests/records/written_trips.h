/* What was written is read back, and what was read is written again. */
#ifndef WRITTEN_TRIPS_H
#define WRITTEN_TRIPS_H

#include "written_drawn.h"

/* Whether the record at the order's place, read by its layout, is what was ordered: of one that has no reading the numbers are
 * zero bits. */
bool reads_as_ordered(const struct order *order, const uint8_t *buffer);

/* Whether a record of random bytes under the mark of a known kind and fluid, read and then written by the call, is the same
 * record; of one that has no reading the mark is, before zero bytes. */
bool is_rewritten(struct generator *g, const struct written_memory *memory, size_t kind, size_t fluid);

/* Whether of all 65,536 marks exactly ten are read, and these are what the call writes for the ten pairs of a kind and a fluid,
 * each for the pair that it is read as. */
bool marks_are_those_written(const struct written_memory *memory);

#endif
