/* A record as it is read, by its layout alone: what was to be written for it. */
#ifndef WRITTEN_READER_H
#define WRITTEN_READER_H

#include "written_expected.h"

#include <stdbool.h>

/* Whether the mark is known; where it is not, nothing is said of the rest. */
bool read_record(const uint8_t record[RECORD_BYTES], struct writing *read);

#endif
