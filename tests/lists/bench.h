/* The searches of crates/bench as C calls them: the fluid's number first. Side 0 is from below, any other from above; a list
 * is its places and how many they are. */
#ifndef LISTS_BENCH_H
#define LISTS_BENCH_H

#include <stddef.h>
#include <stdint.h>

double bench_plain(uint32_t fluid, double T, double P, size_t c, uint32_t side);
uint32_t bench_plain_code(uint32_t fluid, double T, double P, size_t c, uint32_t side);
uint64_t bench_plain_word(uint32_t fluid, double T, double P, size_t c, uint32_t side);

uint32_t bench_prepare(uint32_t fluid, double T, size_t c, double *G, size_t places_G, double *L,
                       size_t places_L);

double bench_quick(uint32_t fluid, double T, double P, size_t c, uint32_t side, const double *G,
                   size_t places_G, const double *L, size_t places_L);
uint32_t bench_quick_code(uint32_t fluid, double T, double P, size_t c, uint32_t side, const double *G,
                          size_t places_G, const double *L, size_t places_L);
uint64_t bench_quick_word(uint32_t fluid, double T, double P, size_t c, uint32_t side, const double *G,
                          size_t places_G, const double *L, size_t places_L);

#endif
