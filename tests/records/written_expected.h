/* M-103's call as the request words it, written from that alone: what it returns, and which bytes it writes. */
#ifndef WRITTEN_EXPECTED_H
#define WRITTEN_EXPECTED_H

#include "record.h"

/* What is to be written: a kind and a fluid by their numbers, and the bits of two numbers. */
struct writing {
    uint32_t kind, fluid;
    uint64_t first, second;
};

/* What the call should return for a place in a buffer of so many bytes. */
uint32_t expected_code(const struct writing *writing, size_t length, size_t place);

/* The bytes that it should write where it returns 0. */
void expected_record(const struct writing *writing, uint8_t record[RECORD_BYTES]);

#endif
