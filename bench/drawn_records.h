/* The records that are timed: states and questions of each fluid, even in its ranges, and records without a reading. */
#ifndef DRAWN_RECORDS_H
#define DRAWN_RECORDS_H

#include "../tests/independent/fluid.h"
#include "../tests/splitmix.h"

#include <stdint.h>
#include <string.h>

enum { RECORD = 18, MOST = 4096 };

static const char letters[FLUIDS] = { 'T', 'F' };

static uint8_t records[MOST][RECORD];

static inline void put(uint8_t *record, uint32_t number, char kind, double first, double second) {
    record[0] = (uint8_t)letters[number];
    record[1] = (uint8_t)kind;
    memcpy(record + 2, &first, 8);
    memcpy(record + 10, &second, 8);
}

static inline double uniform_in(uint64_t *state, struct range range) {
    return splitmix_uniform(state, range.least, range.greatest);
}

/* D is a density, any other kind a pressure. */
static inline void put_drawn(uint8_t *record, uint64_t *state, uint32_t number, char kind) {
    const struct fluid *fluid = fluid_numbered(number);
    double T = uniform_in(state, fluid->T);
    put(record, number, kind, T, uniform_in(state, kind == 'D' ? fluid->rho : fluid->P));
}

/* How many records of each fluid are states, searches from below and searches from above, and how many have no reading. */
struct mix {
    const char *name;
    unsigned states[FLUIDS], below[FLUIDS], above[FLUIDS], unread[FLUIDS];
};

static inline unsigned most(const unsigned counts[FLUIDS]) {
    unsigned greatest = 0;
    for (int number = 0; number < FLUIDS; number++)
        greatest = counts[number] > greatest ? counts[number] : greatest;
    return greatest;
}

/* From record n on, the fluids in turns. */
static inline unsigned draw_kind(unsigned n, uint64_t *state, char kind, const unsigned counts[FLUIDS]) {
    for (unsigned k = 0; k < most(counts); k++)
        for (uint32_t number = 0; number < FLUIDS; number++)
            if (k < counts[number])
                put_drawn(records[n++], state, number, kind);
    return n;
}

/* As many as it says. */
static inline unsigned draw(const struct mix *mix) {
    uint64_t state = 245;
    unsigned n = draw_kind(0, &state, 'D', mix->states);
    n = draw_kind(n, &state, 'B', mix->below);
    n = draw_kind(n, &state, 'A', mix->above);
    return draw_kind(n, &state, 'N', mix->unread);
}

#endif
