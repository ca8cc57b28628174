/* M-105, "True saturation pairs": a pair judged, and a pair proposed. */
#ifndef PAIR_H
#define PAIR_H

#include <stddef.h>
#include <stdint.h>

enum { MOST_ROUNDS = 40, PAIR_BYTES = 16 };

/* The densities of a liquid and of a vapour, in mol/dm³. */
struct pair {
    double liquid, vapour;
};

/* The pair that was accepted, and how many rounds led to it. */
struct proposal {
    uint64_t code;
    struct pair pair;
    int rounds;
};

/* 0 where the pair is accepted at T. The fluid is asked by its number. */
uint64_t judge(uint64_t number, double T, struct pair pair);

/* An output of that many bytes is at hand for the pair. */
struct proposal propose(uint64_t number, double T, size_t room);

#endif
