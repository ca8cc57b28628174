/* How many pressures are worked, so that times can be compared for a pressure: a search of another fluid has another top, and
 * visits more coarse ends or fewer. */
#ifndef WORKED_H
#define WORKED_H

#include <math.h>

#include "../tests/independent/fluid.h"

/* The halvings in a cell work a pressure each. */
enum { IN_CELL = 23, CELLS_IN_ONE = 128 };

/* The cell in which a density was found. */
static inline double cell_of(double rho) {
    return floor(rho * CELLS_IN_ONE);
}

/* Ends 1, 2, .. up to the one after the cell. */
static inline double worked_from_below(double rho) {
    return cell_of(rho) + 1 + IN_CELL;
}

/* The top, and ends downwards to the cell's own. */
static inline double worked_from_above(const struct fluid *fluid, double rho) {
    return (double)fluid->top - cell_of(rho) + 1 + IN_CELL;
}

/* Ends 0 to the top. */
static inline double worked_to_prepare(const struct fluid *fluid) {
    return (double)fluid->top + 1;
}

/* The cell's two ends. */
static inline double worked_quickly(void) {
    return 2 + IN_CELL;
}

#endif
