/* Each thing that can go wrong is one check. */
#include "counts.h"

#define BIT(code) ((uint64_t)1 << (code))

/* 12 is none of the proposer's: its estimates are finite at every T up to Tc. */
static const uint64_t proposer_codes = BIT(ANSWERED) | BIT(REFUSED_NOT_A_NUMBER) | BIT(REFUSED_TEMPERATURE)
    | BIT(REFUSED_SHORT_LIST) | BIT(REFUSED_ABOVE_CRITICAL) | BIT(REFUSED_GIVEN_UP);

static const uint64_t judge_codes = BIT(ANSWERED) | BIT(REFUSED_NOT_A_NUMBER) | BIT(REFUSED_TEMPERATURE) | BIT(REFUSED_DENSITY)
    | BIT(REFUSED_NOT_FINITE) | BIT(REFUSED_NOT_ACCEPTED);

static uint64_t codes_owed(int fluid, uint64_t of_known)
{
    return fluid == NO_FLUID ? BIT(REFUSED_UNKNOWN_FLUID) : of_known;
}

static void show_codes(const struct tally tallies[FLUIDS + 1][CODES], const char *call)
{
    printf("%s:", call);
    for (int fluid = 0; fluid <= NO_FLUID; fluid++) {
        printf("%s %s:", fluid == 0 ? "" : ";", fluid_name(fluid));
        for (int code = 0; code < CODES; code++)
            if (tallies[fluid][code].met != 0)
                printf(" %d (%" PRIu64 ")", code, tallies[fluid][code].met);
    }
}

static void show_rounds(const struct counts *counts)
{
    printf("rounds met:");
    for (int fluid = 0; fluid < FLUIDS; fluid++) {
        printf("%s %s:", fluid == 0 ? "" : ";", fluid_name(fluid));
        for (int rounds = 0; rounds <= MOST_ROUNDS; rounds++)
            if (counts->rounds[fluid][rounds] != 0)
                printf(" %d (%" PRIu64 ")", rounds, counts->rounds[fluid][rounds]);
    }
    printf("\n");
}

static void show_reasons(const struct counts *counts)
{
    for (int reason = 0; reason < REASONS; reason++) {
        printf("not accepted for one reason, %s:", reason_names[reason]);
        for (int fluid = 0; fluid < FLUIDS; fluid++)
            printf(" %s (%" PRIu64 ")", fluid_name(fluid), counts->reasons[fluid][reason].met);
        printf("\n");
    }
}

void show_met(const struct counts *counts)
{
    show_rounds(counts);
    show_reasons(counts);
    printf("codes met: ");
    show_codes(counts->proposed, "the proposer");
    printf("; ");
    show_codes(counts->judged, "the judge");
    printf("\n");
}

static void count_codes(const struct tally tallies[FLUIDS + 1][CODES], uint64_t of_known, const char *call, struct sum *sum)
{
    for (int fluid = 0; fluid <= NO_FLUID; fluid++)
        for (int code = 0; code < CODES; code++) {
            bool owed = codes_owed(fluid, of_known) >> code & 1;
            if (count_tally(sum, &tallies[fluid][code], owed))
                continue;
            printf("%s, %s, code %d", call, fluid_name(fluid), code);
            show_failure(&tallies[fluid][code], owed);
        }
}

static void count_named(const struct tally *tallies, const char *const *names, int count, const char *what, struct sum *sum)
{
    for (int i = 0; i < count; i++) {
        if (count_tally(sum, &tallies[i], true))
            continue;
        printf("%s %s", what, names[i]);
        show_failure(&tallies[i], true);
    }
}

static void count_own(const struct counts *counts, struct sum *sum)
{
    for (int fluid = 0; fluid < FLUIDS; fluid++) {
        if (count_tally(sum, &counts->own[fluid], true))
            continue;
        printf("%s, what is handed on is accepted", fluid_name(fluid));
        show_failure(&counts->own[fluid], true);
    }
}

/* One check: under every length. */
static void count_lengths(const struct counts *counts, struct sum *sum)
{
    bool passed = true;
    for (int length = 0; length <= LONGEST_OUTPUT; length++) {
        if (has_passed(&counts->lengths[length], true))
            continue;
        printf("an output of %d bytes", length);
        show_failure(&counts->lengths[length], true);
        passed = false;
    }
    count_check(sum, passed);
}

struct sum count_all(const struct counts *counts)
{
    struct sum sum = { 0 };
    count_kelvins(&counts->kelvins, &sum);
    count_named(counts->warmths, warmth_names, WARMTHS, "temperatures", &sum);
    count_codes(counts->proposed, proposer_codes, "the proposer", &sum);
    count_lengths(counts, &sum);
    count_own(counts, &sum);
    count_named(counts->sorts, sort_names, SORTS, "pairs", &sum);
    count_codes(counts->judged, judge_codes, "the judge", &sum);
    for (int fluid = 0; fluid < FLUIDS; fluid++)
        count_named(counts->reasons[fluid], reason_names, REASONS, fluid_name(fluid), &sum);
    count_claims(&counts->claims, &sum);
    return sum;
}
