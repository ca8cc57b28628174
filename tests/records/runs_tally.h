/* What can go wrong, each as one check: it has passed if it was met and never differed. */
#ifndef RUNS_TALLY_H
#define RUNS_TALLY_H

#include <inttypes.h>
#include <stdbool.h>
#include <stdio.h>

struct tally {
    uint64_t met, differed;
};

struct sum {
    int passed, failed;
};

static inline void note(struct tally *tally, bool same)
{
    tally->met++;
    tally->differed += !same;
}

/* What is not owed has to be met never. */
static inline bool has_passed(const struct tally *tally, bool owed)
{
    return owed ? tally->met != 0 && tally->differed == 0 : tally->met == 0;
}

static inline void count_check(struct sum *sum, bool passed)
{
    if (passed)
        sum->passed++;
    else
        sum->failed++;
}

/* Whether the check has passed, which is counted. What is not owed is no check where it was never met. */
static inline bool count_tally(struct sum *sum, const struct tally *tally, bool owed)
{
    bool passed = has_passed(tally, owed);
    if (owed || !passed)
        count_check(sum, passed);
    return passed;
}

/* Ends the line of a check that has not passed. */
static inline void show_failure(const struct tally *tally, bool owed)
{
    printf(": FAILED, met %" PRIu64 " times%s, %" PRIu64 " differ\n", tally->met, owed ? "" : " though it cannot be",
           tally->differed);
}

#endif
