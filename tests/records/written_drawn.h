/* Records to be written at random, among them such as are refused, and the buffers that are lent for them. */
#ifndef WRITTEN_DRAWN_H
#define WRITTEN_DRAWN_H

#include "../generator.h"
#include "written_asked.h"

/* The five kinds, then numbers that a wrong test takes for one of them, and after these any other. */
enum { KNOWN_KINDS = 5, LISTED_KINDS = 45, KINDS };

/* The fluids likewise. */
enum { LISTED_FLUIDS = 18, FLUID_NUMBERS };

/* The number of a listed kind or fluid; there is none of those after the list. */
uint32_t listed_kind(size_t which);
uint32_t listed_fluid(size_t which);

/* Which of the five it is, or KNOWN_KINDS; which fluid, or NO_FLUID. */
size_t known_kind(uint32_t kind);
size_t known_fluid(uint32_t fluid);

/* The place, by the room that the buffer has. */
enum spot {
    FIRST,
    LAST,
    ANYWHERE,
    FITTING_SPOTS,
    ONE_TOO_FAR = FITTING_SPOTS,
    CUT_OFF,
    AT_END,
    BEYOND,
    FAR_BEYOND,
    SHORT_BUFFER,
    SPOTS,
};

extern const char *const spot_names[SPOTS];

/* The furthest place but for those far beyond. */
enum { FURTHEST_PLACE = 70 };

struct choice {
    size_t kind, fluid;
    enum spot spot;
};

/* Most kinds and fluids are known, and most places fit. */
struct choice any_choice(struct generator *g);

/* All of the order, and random bytes in the longest buffer. */
void draw_order(struct generator *g, struct choice choice, struct order *order);

#endif
