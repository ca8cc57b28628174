/* 01, "Marked records, the program, the C call", with M-100's marks: one record's answer, written from these alone. */
#ifndef RECORD_H
#define RECORD_H

#include "../independent/fluid.h"
#include "../independent/refusals.h"

#include <stddef.h>
#include <stdint.h>

enum { RECORD_BYTES = 18, NUMBER_BYTES = 8, REFUSED_NO_READING = 1 };

/* The code and, where it is 0, the number. An output of that many bytes is at hand. */
struct outcome record_outcome(const uint8_t *record, size_t length, size_t room);

/* The two letters that stand for the record on a line. */
const char *record_mark(const uint8_t *record, size_t length);

/* A record is of a fluid by its mark, or of none where it has no known mark. */
enum { NO_FLUID = FLUIDS };

int record_fluid(const uint8_t *record, size_t length);
const char *record_fluid_name(int fluid);

#endif
