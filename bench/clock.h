/* The clock of what is timed by records. Who includes it asks for clock_gettime first (_DEFAULT_SOURCE). */
#ifndef CLOCK_H
#define CLOCK_H

#include <time.h>

static inline double seconds(void) {
    struct timespec now;
    clock_gettime(CLOCK_MONOTONIC, &now);
    return (double)now.tv_sec + 1e-9 * (double)now.tv_nsec;
}

#endif
