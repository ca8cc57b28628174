/*
 * Writes a file of records to standard output.
 *
 *     file random SEED COUNT ONE_SEARCH_IN      random records, valid and damaged, 18 bytes each
 *     file states SEED COUNT                    temperatures and densities in a fluid's range
 *     file marks                                a record under each of the 65,536 pairs of bytes
 */
#include "../generator/draw.h"
#include "../independent/bits.h"
#include "../independent/fluid.h"
#include "../records/drawn.h"
#include "../records/record.h"

#include <stdio.h>
#include <stdlib.h>
#include <string.h>

static uint64_t number(const char *word)
{
    return strtoull(word, NULL, 10);
}

static void write_record(const uint8_t *bytes)
{
    fwrite(bytes, 1, RECORD_BYTES, stdout);
}

static void write_random(uint64_t seed, uint64_t count, uint64_t one_search_in)
{
    struct generator g = { .state = seed };
    for (uint64_t k = 0; k < count; k++) {
        struct drawn drawn = drawn_record(&g, one_search_in);
        write_record(drawn.bytes);
    }
}

static void write_states(uint64_t seed, uint64_t count)
{
    struct generator g = { .state = seed };
    for (uint64_t k = 0; k < count; k++) {
        const struct fluid *fluid = any_fluid(&g);
        uint8_t bytes[RECORD_BYTES] = { fluid == &r245fa ? 'F' : 'T', 'D' };
        put_number(bytes + 2, uniform(&g, fluid->T.least, fluid->T.greatest));
        put_number(bytes + 10, uniform(&g, fluid->rho.least, fluid->rho.greatest));
        write_record(bytes);
    }
}

/* Both numbers are in every fluid's range, the second as a density and as a pressure, so that known marks are answered. */
static void write_marks(void)
{
    uint8_t bytes[RECORD_BYTES];
    for (unsigned mark = 0; mark < 65536; mark++) {
        bytes[0] = (uint8_t)(mark >> 8);
        bytes[1] = (uint8_t)mark;
        put_number(bytes + 2, bits_of(300));
        put_number(bytes + 10, bits_of(10) + mark);
        write_record(bytes);
    }
}

int main(int argc, char **argv)
{
    if (argc == 5 && strcmp(argv[1], "random") == 0)
        write_random(number(argv[2]), number(argv[3]), number(argv[4]));
    else if (argc == 4 && strcmp(argv[1], "states") == 0)
        write_states(number(argv[2]), number(argv[3]));
    else if (argc == 2 && strcmp(argv[1], "marks") == 0)
        write_marks();
    else
        return 2;
    return fflush(stdout) != 0;
}
