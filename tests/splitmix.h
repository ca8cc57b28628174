/* splitmix64: the same numbers from the same seed on every machine. */
#ifndef SPLITMIX_H
#define SPLITMIX_H

#include <stdint.h>

static inline uint64_t splitmix(uint64_t *state)
{
    *state += 0x9e3779b97f4a7c15;
    uint64_t z = *state;
    z = (z ^ (z >> 30)) * 0xbf58476d1ce4e5b9;
    z = (z ^ (z >> 27)) * 0x94d049bb133111eb;
    return z ^ (z >> 31);
}

/* In 0 to 1, 1 left out. */
static inline double splitmix_unit(uint64_t *state)
{
    return (double)(splitmix(state) >> 11) * 0x1p-53;
}

static inline double splitmix_uniform(uint64_t *state, double least, double greatest)
{
    return least + (greatest - least) * splitmix_unit(state);
}

#endif
