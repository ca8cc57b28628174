/* A binary64 number as the eight bytes that it has in a record and in an output, the lowest first. */
#ifndef NUMBERS_H
#define NUMBERS_H

#include "verriblom.h"

#include <string.h>

static inline void put_number(uint8_t *bytes, double number)
{
    uint64_t bits;
    memcpy(&bits, &number, sizeof bits);
    for (int k = 0; k < VERRIBLOM_NUMBER_BYTES; k++)
        bytes[k] = (uint8_t)(bits >> 8 * k);
}

static inline double number_at(const uint8_t *bytes)
{
    uint64_t bits = 0;
    for (int k = VERRIBLOM_NUMBER_BYTES; k-- > 0;)
        bits = bits << 8 | bytes[k];
    double number;
    memcpy(&number, &bits, sizeof number);
    return number;
}

/* The 18 bytes of a mark and two numbers. */
static inline void put_record(uint8_t *record, const char *mark, double first, double second)
{
    memcpy(record, mark, 2);
    put_number(record + 2, first);
    put_number(record + 10, second);
}

#endif
