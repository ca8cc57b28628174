/* What a C call hands out: a word, and the bits of a number, in eight bytes, the lowest first. */
#ifndef PUT_H
#define PUT_H

#include <stdint.h>
#include <string.h>

static inline void put_word(uint8_t *out, uint64_t word) {
    for (int k = 0; k < 8; k++)
        out[k] = (uint8_t)(word >> 8 * k);
}

/* The code of a number that was put. */
static inline uint32_t put_number(uint8_t *out, double number) {
    uint64_t bits;
    memcpy(&bits, &number, sizeof bits);
    put_word(out, bits);
    return 0;
}

#endif
