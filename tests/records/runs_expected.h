/* M-101's run of records, answered one after the other by the independent implementation. */
#ifndef RUNS_EXPECTED_H
#define RUNS_EXPECTED_H

#include <stddef.h>
#include <stdint.h>

/* How many records so many bytes have, a piece at the end counted. */
size_t records_in(size_t records_len);

/* How many bytes the k-th of them has: 18, or less if it is the piece. */
size_t record_length(size_t records_len, size_t k);

/* What the call should do with these areas, and what it should return. */
uint32_t expected_answers(const uint8_t *records, size_t records_len, uint8_t *out, size_t out_len,
                          uint32_t *codes, size_t codes_len);

#endif
