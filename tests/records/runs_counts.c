/* Each thing that can go wrong is one check. */
#include "runs_counts.h"

static const char *const source_names[SOURCES] = { "the independent implementation", "the call for one record" };

/* No run is too long that has no more than 4,096 records, and none is answered that has more. */
static uint64_t returned_owed(enum shape shape)
{
    if (shape == NO_RECORDS)
        return 1 << ANSWERED;
    return 1 << REFUSED_SHORT_LIST | (shape < ONE_ABOVE_MOST ? 1 << ANSWERED : 1 << REFUSED_TOO_MANY_RECORDS);
}

/* Those of a record that has its eight bytes: 7 is never met in a run. */
static uint64_t codes_owed(int fluid)
{
    return fluid == NO_FLUID ? 1 << 14 | 1 << 15 : 1 << 0 | 1 << 1 | 1 << 2 | 1 << 3 | 1 << 4 | 1 << 5;
}

static void show_met(const struct tally tallies[CODES])
{
    for (int code = 0; code < CODES; code++)
        if (tallies[code].met != 0)
            printf(" %d (%" PRIu64 ")", code, tallies[code].met);
}

void show_codes(const struct counts *counts)
{
    struct tally returned[CODES] = { 0 };
    for (int shape = 0; shape < SHAPES; shape++)
        for (int code = 0; code < CODES; code++)
            returned[code].met += counts->returned[shape][code].met;
    printf("codes met: returned:");
    show_met(returned);
    for (int fluid = 0; fluid <= NO_FLUID; fluid++) {
        printf("; %s:", record_fluid_name(fluid));
        show_met(counts->records[INDEPENDENT][fluid]);
    }
    printf("\n");
}

static bool has_passed_kind(const struct counts *counts, struct run_kind kind)
{
    const struct tally *tally = &counts->runs[kind.shape][kind.out][kind.codes];
    if (has_passed(tally, is_possible(kind)))
        return true;
    printf("%s, output %s, codes %s", shape_names[kind.shape], room_names[kind.out], room_names[kind.codes]);
    show_failure(tally, is_possible(kind));
    return false;
}

/* One check for each shape: under every pair of lists. */
static void count_kinds(const struct counts *counts, struct sum *sum)
{
    for (enum shape shape = 0; shape < SHAPES; shape++) {
        bool passed = true;
        for (enum room out = 0; out < OUT_ROOMS; out++)
            for (enum room codes = 0; codes < CODE_ROOMS; codes++)
                passed = has_passed_kind(counts, (struct run_kind){ shape, out, codes }) && passed;
        count_check(sum, passed);
    }
}

static void count_returned(const struct counts *counts, struct sum *sum)
{
    for (enum shape shape = 0; shape < SHAPES; shape++)
        for (int code = 0; code < CODES; code++) {
            bool owed = returned_owed(shape) >> code & 1;
            if (count_tally(sum, &counts->returned[shape][code], owed))
                continue;
            printf("%s, returned %d", shape_names[shape], code);
            show_failure(&counts->returned[shape][code], owed);
        }
}

static void count_pieces(const struct counts *counts, struct sum *sum)
{
    for (int piece = 0; piece < RECORD_BYTES; piece++) {
        if (count_tally(sum, &counts->pieces[piece], true))
            continue;
        printf("answered, %d bytes after the last whole record", piece);
        show_failure(&counts->pieces[piece], true);
    }
}

static void count_records(const struct counts *counts, struct sum *sum)
{
    for (int i = 0; i < SOURCES; i++)
        for (int fluid = 0; fluid <= NO_FLUID; fluid++)
            for (int code = 0; code < CODES; code++) {
                bool owed = codes_owed(fluid) >> code & 1;
                const struct tally *tally = &counts->records[i][fluid][code];
                if (count_tally(sum, tally, owed))
                    continue;
                printf("against %s, records of %s, code %d", source_names[i], record_fluid_name(fluid), code);
                show_failure(tally, owed);
            }
}

struct sum count_all(const struct counts *counts)
{
    struct sum sum = { 0 };
    count_kinds(counts, &sum);
    count_returned(counts, &sum);
    count_pieces(counts, &sum);
    count_records(counts, &sum);
    count_claims(&counts->claims, &sum);
    return sum;
}
