/*
 * The C calls about saturation against the independent implementation: the proposer at every whole kelvin, whose pairs are
 * stored, and at temperatures of all sorts; the judge with pairs that are good, nearly good and absurd. What is returned and all
 * bytes of the output are compared, which begins where memory that may not be touched ends, and then ends where it begins.
 *
 *     saturation SEED COUNT KELVINS
 *     saturation write
 *
 * The second writes the lines of KELVINS, by the independent implementation alone.
 */
#include "../../include/verriblom.h"
#include "../generator/draw.h"
#include "../independent/bits.h"
#include "counts.h"

#include <stdlib.h>
#include <string.h>

enum { DIFFERENCES_SHOWN = 5 };

/* The header's numbers are 01's, M-100's and M-105's. */
_Static_assert((int)VERRIBLOM_ANSWERED == (int)ANSWERED && (int)VERRIBLOM_INPUT_NOT_FINITE == (int)REFUSED_NOT_A_NUMBER
                   && (int)VERRIBLOM_TEMPERATURE_OUTSIDE == (int)REFUSED_TEMPERATURE
                   && (int)VERRIBLOM_DENSITY_OUTSIDE == (int)REFUSED_DENSITY
                   && (int)VERRIBLOM_OUTPUT_TOO_SHORT == (int)REFUSED_SHORT_LIST
                   && (int)VERRIBLOM_WORK_NOT_FINITE == (int)REFUSED_NOT_FINITE
                   && (int)VERRIBLOM_ABOVE_CRITICAL == (int)REFUSED_ABOVE_CRITICAL
                   && (int)VERRIBLOM_UNKNOWN_FLUID == (int)REFUSED_UNKNOWN_FLUID
                   && (int)VERRIBLOM_NOT_ACCEPTED == (int)REFUSED_NOT_ACCEPTED
                   && (int)VERRIBLOM_GAVE_UP == (int)REFUSED_GIVEN_UP,
               "a code of the header is another than 01's or 02's");

/* Written out at once, as a later call may end the program. */
static void show_order(const struct order *order, const struct result got[ENDS], const struct result *wanted)
{
    printf("  fluid %" PRIu32 ", T %016" PRIx64 " (%.17g), an output of %zu bytes: expected %" PRIu32 ", returned %" PRIu32
           " and %" PRIu32 ", or other bytes\n",
           order->fluid, order->T, number_of(order->T), order->length, wanted->code, got[0].code, got[1].code);
    fflush(stdout);
}

static void show_trial(const struct trial *trial, uint32_t got, uint64_t wanted)
{
    printf("  fluid %" PRIu32 ", T %016" PRIx64 " (%.17g), liquid %016" PRIx64 " (%.17g), vapour %016" PRIx64 " (%.17g): ",
           trial->fluid, trial->T, number_of(trial->T), trial->liquid, number_of(trial->liquid), trial->vapour,
           number_of(trial->vapour));
    printf("expected %" PRIu64 ", returned %" PRIu32 "\n", wanted, got);
    fflush(stdout);
}

/* A pair that was handed on. */
static void note_pair(const struct order *order, const struct result got[ENDS], int rounds, struct counts *counts)
{
    counts->rounds[order->fluid][rounds]++;
    note(&counts->own[order->fluid], got[0].code == ANSWERED && accepts_its_own(order, &got[0]));
}

static void compare_order(struct generator *g, const struct memory *memory, enum warmth warmth, struct counts *counts)
{
    struct order order;
    struct result wanted, got[ENDS];
    draw_order(g, warmth, &order);
    struct proposal proposal = propose(order.fluid, number_of(order.T), order.length);
    expect_result(&order, &proposal, &wanted);
    bool same = does_as_wanted(memory, &order, &wanted, got);
    note(&counts->warmths[warmth], same);
    note(&counts->proposed[fluid_of(order.fluid)][wanted.code], same);
    note(&counts->lengths[order.length], same);
    if (wanted.code == ANSWERED)
        note_pair(&order, got, proposal.rounds, counts);
    if (!same && counts->shown++ < DIFFERENCES_SHOWN)
        show_order(&order, got, &wanted);
}

static uint64_t expected_judgement(const struct trial *trial)
{
    struct pair pair = { .liquid = number_of(trial->liquid), .vapour = number_of(trial->vapour) };
    return judge(trial->fluid, number_of(trial->T), pair);
}

static void note_reason(const struct trial *trial, bool same, struct counts *counts)
{
    int reason = only_reason(trial);
    if (reason != SEVERAL_REASONS)
        note(&counts->reasons[trial->fluid][reason], same);
}

static void compare_trial(struct generator *g, enum sort sort, struct counts *counts)
{
    struct trial trial;
    draw_trial(g, sort, &trial);
    uint64_t wanted = expected_judgement(&trial);
    uint32_t got = ask_judge(&trial);
    bool same = got == wanted;
    note(&counts->sorts[sort], same);
    note(&counts->judged[fluid_of(trial.fluid)][wanted], same);
    if (wanted == REFUSED_NOT_ACCEPTED)
        note_reason(&trial, same, counts);
    if (!same && counts->shown++ < DIFFERENCES_SHOWN)
        show_trial(&trial, got, wanted);
}

/* Temperatures and pairs of every sort in turn. */
static void compare_drawn(struct generator *g, const struct memory *memory, uint64_t count, struct counts *counts)
{
    for (uint64_t i = 0; i < count; i++) {
        compare_order(g, memory, (enum warmth)(i % WARMTHS), counts);
        compare_trial(g, (enum sort)(i % SORTS), counts);
    }
    compare_claims(g, memory, &counts->claims);
}

static int compare_all(uint64_t seed, uint64_t count, const char *kelvins)
{
    struct generator g = { .state = seed };
    struct memory memory;
    static struct counts counts;
    if (!lend_memory(&memory)) {
        fprintf(stderr, "saturation: no guarded memory\n");
        return 2;
    }
    if (!compare_kelvins(&memory, kelvins, &counts.kelvins)) {
        fprintf(stderr, "saturation: %s is not to be read\n", kelvins);
        return 2;
    }
    compare_drawn(&g, &memory, count, &counts);
    show_met(&counts);
    struct sum sum = count_all(&counts);
    printf("%d passed, %d failed\n", sum.passed, sum.failed);
    return sum.failed != 0;
}

int main(int argc, char **argv)
{
    if (argc == 4)
        return compare_all(strtoull(argv[1], NULL, 10), strtoull(argv[2], NULL, 10), argv[3]);
    if (argc == 2 && strcmp(argv[1], "write") == 0) {
        write_kelvins(stdout);
        return EXIT_SUCCESS;
    }
    fprintf(stderr, "usage: saturation SEED COUNT KELVINS\n       saturation write\n");
    return 2;
}
