/* Each thing that can go wrong is one check. */
#include "written_counts.h"

static const char *const kind_names[KNOWN_KINDS + 1] = { "D", "B", "A", "P", "N", "unknown kind" };

static const char *fluid_name(int fluid)
{
    return fluid == NO_FLUID ? "unknown fluid" : fluid_numbered((uint64_t)fluid)->name;
}

static uint64_t codes_owed(int kind, int fluid)
{
    if (kind == KNOWN_KINDS)
        return 1 << REFUSED_UNKNOWN;
    return fluid == NO_FLUID ? 1 << REFUSED_UNKNOWN_FLUID : 1 << ANSWERED | 1 << REFUSED_SHORT_LIST;
}

static uint64_t met_of_fluid(const struct counts *counts, int fluid, int code)
{
    uint64_t met = 0;
    for (int kind = 0; kind <= KNOWN_KINDS; kind++)
        met += counts->codes[kind][fluid][code].met;
    return met;
}

void show_codes(const struct counts *counts)
{
    printf("codes met:");
    for (int fluid = 0; fluid <= NO_FLUID; fluid++) {
        printf("%s %s:", fluid == 0 ? "" : ";", fluid_name(fluid));
        for (int code = 0; code < CODES; code++)
            if (met_of_fluid(counts, fluid, code) != 0)
                printf(" %d (%" PRIu64 ")", code, met_of_fluid(counts, fluid, code));
    }
    printf("\n");
}

static void show_number(const char *what, uint32_t number, bool listed)
{
    if (listed)
        printf("%s %" PRIu32 ", ", what, number);
    else
        printf("any other %s, ", what);
}

static bool has_passed_choice(const struct counts *counts, struct choice choice)
{
    const struct tally *tally = &counts->choices[choice.kind][choice.fluid][choice.spot];
    if (has_passed(tally, true))
        return true;
    bool kind_listed = choice.kind < LISTED_KINDS, fluid_listed = choice.fluid < LISTED_FLUIDS;
    show_number("kind", kind_listed ? listed_kind(choice.kind) : 0, kind_listed);
    show_number("fluid", fluid_listed ? listed_fluid(choice.fluid) : 0, fluid_listed);
    printf("%s", spot_names[choice.spot]);
    show_failure(tally, true);
    return false;
}

/* One check for each kind: under every fluid and at every place. */
static void count_choices(const struct counts *counts, struct sum *sum)
{
    for (size_t kind = 0; kind < KINDS; kind++) {
        bool passed = true;
        for (size_t fluid = 0; fluid < FLUID_NUMBERS; fluid++)
            for (enum spot spot = 0; spot < SPOTS; spot++)
                passed = has_passed_choice(counts, (struct choice){ kind, fluid, spot }) && passed;
        count_check(sum, passed);
    }
}

static void count_codes(const struct counts *counts, struct sum *sum)
{
    for (int kind = 0; kind <= KNOWN_KINDS; kind++)
        for (int fluid = 0; fluid <= NO_FLUID; fluid++)
            for (int code = 0; code < CODES; code++) {
                const struct tally *tally = &counts->codes[kind][fluid][code];
                bool owed = codes_owed(kind, fluid) >> code & 1;
                if (count_tally(sum, tally, owed))
                    continue;
                printf("%s, %s, code %d", kind_names[kind], fluid_name(fluid), code);
                show_failure(tally, owed);
            }
}

static void count_applying(const struct counts *counts, struct sum *sum)
{
    for (int applying = 0; applying < APPLYING; applying++) {
        if (count_tally(sum, &counts->applying[applying], true))
            continue;
        printf("refusals that apply:%s%s%s", applying & KIND_UNKNOWN ? " 14" : "", applying & FLUID_UNKNOWN ? " 17" : "",
               applying & NO_ROOM ? " 7" : "");
        show_failure(&counts->applying[applying], true);
    }
}

/* One check for each known kind and fluid. */
static void count_pairs(const struct tally tallies[KNOWN_KINDS][FLUIDS], const char *what, struct sum *sum)
{
    for (int kind = 0; kind < KNOWN_KINDS; kind++)
        for (int fluid = 0; fluid < FLUIDS; fluid++) {
            if (count_tally(sum, &tallies[kind][fluid], true))
                continue;
            printf("%s, %s, %s", what, kind_names[kind], fluid_name(fluid));
            show_failure(&tallies[kind][fluid], true);
        }
}

static void count_whole(const struct tally *tally, const char *what, struct sum *sum)
{
    if (count_tally(sum, tally, true))
        return;
    printf("%s", what);
    show_failure(tally, true);
}

struct sum count_all(const struct counts *counts)
{
    struct sum sum = { 0 };
    count_choices(counts, &sum);
    count_codes(counts, &sum);
    count_applying(counts, &sum);
    count_pairs(counts->read, "written and read", &sum);
    count_pairs(counts->rewritten, "read and written", &sum);
    count_whole(&counts->places, "every place of every buffer", &sum);
    count_whole(&counts->small_kinds, "every small kind", &sum);
    count_whole(&counts->small_fluids, "every small fluid", &sum);
    count_whole(&counts->marks, "all marks", &sum);
    count_claims(&counts->claims, &sum);
    return sum;
}
