/*
 * The C call against the independent implementation: random records of 0 to 40 bytes and outputs
 * of 0 to 20, codes and all bytes compared. Record and output each end where memory that may not
 * be touched begins.
 *
 *     differential SEED COUNT ONE_SEARCH_IN
 */
#include "../../include/verriblom.h"
#include "../generator/draw.h"
#include "../guarded.h"
#include "../independent/bits.h"
#include "../wire.h"
#include "drawn.h"
#include "record.h"

#include <inttypes.h>
#include <stdio.h>
#include <stdlib.h>
#include <string.h>

enum { LONGEST_OUTPUT = 20, DIFFERENCES_SHOWN = 5 };

/* The header's numbers are 01's. */
_Static_assert((int)VERRIBLOM_ANSWERED == (int)ANSWERED
                   && (int)VERRIBLOM_NO_READING == (int)REFUSED_NO_READING
                   && (int)VERRIBLOM_INPUT_NOT_FINITE == (int)REFUSED_NOT_A_NUMBER
                   && (int)VERRIBLOM_TEMPERATURE_OUTSIDE == (int)REFUSED_TEMPERATURE
                   && (int)VERRIBLOM_DENSITY_OUTSIDE == (int)REFUSED_DENSITY
                   && (int)VERRIBLOM_PRESSURE_OUTSIDE == (int)REFUSED_PRESSURE
                   && (int)VERRIBLOM_OUTPUT_TOO_SHORT == (int)REFUSED_SHORT_LIST
                   && (int)VERRIBLOM_NO_CELL == (int)REFUSED_NOT_REACHED
                   && (int)VERRIBLOM_NOT_NEIGHBOURS == (int)REFUSED_HALVINGS
                   && (int)VERRIBLOM_WORK_NOT_FINITE == (int)REFUSED_NOT_FINITE
                   && (int)VERRIBLOM_UNKNOWN_MARK == (int)REFUSED_UNKNOWN
                   && (int)VERRIBLOM_RECORD_CUT_SHORT == (int)REFUSED_CUT_SHORT
                   && (int)VERRIBLOM_UNKNOWN_FLUID == (int)REFUSED_UNKNOWN_FLUID
                   && (int)VERRIBLOM_TOO_MANY_RECORDS == (int)REFUSED_TOO_MANY_RECORDS,
               "a code of the header is another than 01's");

/* Where record and output end. */
struct memory {
    uint8_t *record_end, *out_end;
};

/* Of each fluid and each code that is expected: how often it was met, and how often the call differed. */
struct counts {
    uint64_t met[FLUIDS + 1][CODES], differed[FLUIDS + 1][CODES], shown;
};

/* A record's codes, every one of which a run has to meet. */
static const uint64_t fluid_codes = 1 << 0 | 1 << 1 | 1 << 2 | 1 << 3 | 1 << 4 | 1 << 5 | 1 << 7;
static const uint64_t other_codes = 1 << 14 | 1 << 15;

static bool is_owed(int fluid, int code)
{
    return (fluid == NO_FLUID ? other_codes : fluid_codes) >> code & 1;
}

static void show(const struct drawn *drawn, size_t room, uint32_t got, uint64_t wanted)
{
    printf("  record");
    for (size_t k = 0; k < drawn->length; k++)
        printf(" %02x", drawn->bytes[k]);
    printf(", output of %zu: code %" PRIu32 ", expected %" PRIu64 ", or other bytes\n", room, got,
           wanted);
}

/* The output as it should be afterwards. */
static uint64_t expect(const struct drawn *drawn, uint8_t *out, size_t room)
{
    struct outcome outcome = record_outcome(drawn->bytes, drawn->length, room);
    if (outcome.code == ANSWERED)
        put_number(out, bits_of(outcome.value));
    return outcome.code;
}

static void compare_one(struct generator *g, struct memory *memory, uint64_t one_search_in,
                        struct counts *counts)
{
    struct drawn drawn = drawn_record(g, one_search_in);
    size_t room = below(g, 4) == 0 ? below(g, LONGEST_OUTPUT + 1) : NUMBER_BYTES + below(g, 13);
    uint8_t *record = memory->record_end - drawn.length;
    uint8_t *out = memory->out_end - room;
    uint8_t wanted[LONGEST_OUTPUT];
    memcpy(record, drawn.bytes, drawn.length);
    for (size_t k = 0; k < room; k++)
        out[k] = wanted[k] = (uint8_t)any_bits(g);

    uint64_t code = expect(&drawn, wanted, room);
    uint32_t got = verriblom_answer(record, drawn.length, out, room);
    counts->met[record_fluid(drawn.bytes, drawn.length)][code]++;
    if (got == code && memcmp(out, wanted, room) == 0 && memcmp(record, drawn.bytes, drawn.length) == 0)
        return;
    counts->differed[record_fluid(drawn.bytes, drawn.length)][code]++;
    if (counts->shown++ < DIFFERENCES_SHOWN)
        show(&drawn, room, got, code);
}

static void show_codes(const struct counts *counts)
{
    printf("codes met:");
    for (int fluid = 0; fluid <= NO_FLUID; fluid++) {
        printf("%s %s:", fluid == 0 ? "" : ";", record_fluid_name(fluid));
        for (int code = 0; code < CODES; code++)
            if (counts->met[fluid][code] != 0)
                printf(" %d (%" PRIu64 ")", code, counts->met[fluid][code]);
    }
    printf("\n");
}

/* A code of a fluid has passed if it was met and no record with it differed. */
static int count_codes(const struct counts *counts)
{
    int passed = 0, failed = 0;
    for (int fluid = 0; fluid <= NO_FLUID; fluid++)
        for (int code = 0; code < CODES; code++) {
            uint64_t met = counts->met[fluid][code], differed = counts->differed[fluid][code];
            if (differed != 0)
                printf("%s, code %d: %" PRIu64 " records differ\n", record_fluid_name(fluid), code, differed);
            if (!is_owed(fluid, code) && differed == 0)
                continue;
            if (met != 0 && differed == 0)
                passed++;
            else
                failed++;
        }
    printf("%d passed, %d failed\n", passed, failed);
    return failed != 0;
}

int main(int argc, char **argv)
{
    if (argc != 4) {
        fprintf(stderr, "usage: differential SEED COUNT ONE_SEARCH_IN\n");
        return 2;
    }
    struct generator g = { .state = strtoull(argv[1], NULL, 10) };
    uint64_t count = strtoull(argv[2], NULL, 10), one_search_in = strtoull(argv[3], NULL, 10);
    struct memory memory = {
        .record_end = guarded_end(LONGEST_RECORD),
        .out_end = guarded_end(LONGEST_OUTPUT),
    };
    if (memory.record_end == NULL || memory.out_end == NULL) {
        fprintf(stderr, "differential: no guarded memory\n");
        return 2;
    }
    struct counts counts = { 0 };
    for (uint64_t i = 0; i < count; i++)
        compare_one(&g, &memory, one_search_in, &counts);
    show_codes(&counts);
    return count_codes(&counts);
}
