/*
 * The C call for a run of records against the independent implementation, and against the call for one record made for each
 * in turn: runs of 0 to 4,100 records, a piece at the end of many, and lists of all lengths. What is returned and all places of
 * the three areas are compared. These end where memory that may not be touched begins, and then begin where it ends.
 *
 *     runs SEED COUNT
 */
#include "../../include/verriblom.h"
#include "../generator/draw.h"
#include "runs_counts.h"
#include "runs_expected.h"

#include <stdlib.h>
#include <string.h>

enum { DIFFERENCES_SHOWN = 5 };

/* The header's lengths are M-101's. */
_Static_assert(VERRIBLOM_MOST_RECORDS == 4096 && VERRIBLOM_RECORD_BYTES == (int)RECORD_BYTES
                   && VERRIBLOM_NUMBER_BYTES == (int)NUMBER_BYTES,
               "a length of the header is another than M-101's");

/* Whether the k-th record has the same code and the same eight bytes. */
static bool same_record(const struct reply *one, const struct reply *other, size_t k)
{
    size_t from = k * NUMBER_BYTES;
    return one->codes[k] == other->codes[k] && memcmp(one->out + from, other->out + from, NUMBER_BYTES) == 0;
}

static void note_records(const struct run *run, const struct reply got[ENDS], const struct reply wanted[SOURCES],
                         struct counts *counts)
{
    for (size_t k = 0; k < records_in(run->lent.records); k++) {
        int fluid = record_fluid(run->records + k * RECORD_BYTES, record_length(run->lent.records, k));
        uint32_t code = wanted[INDEPENDENT].codes[k];
        for (int i = 0; i < SOURCES; i++)
            note(&counts->records[i][fluid][code],
                 same_record(&got[0], &wanted[i], k) && same_record(&got[1], &wanted[i], k));
    }
}

/* The first record that has another code or other bytes, or as many as there are. */
static size_t differing_record(const struct run *run, const struct reply got[ENDS], const struct reply *wanted)
{
    size_t k = 0;
    while (k < records_in(run->lent.records) && same_record(&got[0], wanted, k) && same_record(&got[1], wanted, k))
        k++;
    return k;
}

/* Written out at once, as a later call may end the program. */
static void show_difference(const struct run *run, const struct reply got[ENDS], const struct reply *wanted)
{
    printf("  %zu bytes of records, output of %zu bytes, %zu codes: returned %" PRIu32 " and %" PRIu32 ", expected %" PRIu32,
           run->lent.records, run->lent.out, run->lent.codes, got[0].code, got[1].code, wanted->code);
    if (wanted->code == ANSWERED && differing_record(run, got, wanted) < records_in(run->lent.records))
        printf("; the answers differ first at record %zu", differing_record(run, got, wanted));
    printf("\n");
    fflush(stdout);
}

/* Whether the run was answered or refused as it should be. */
static bool compare_run(const struct run_memory *memory, const struct run *run, enum shape shape, struct counts *counts)
{
    static struct reply wanted[SOURCES], got[ENDS];
    expect_reply(run, &wanted[INDEPENDENT]);
    bool same = does_as_wanted(memory, run, &wanted[INDEPENDENT], got);
    if (wanted[INDEPENDENT].code == ANSWERED) {
        ask_singly(run, &wanted[SINGLE_CALL]);
        same = same && same_reply(run, &got[0], &wanted[SINGLE_CALL]) && same_reply(run, &got[1], &wanted[SINGLE_CALL]);
        note_records(run, got, wanted, counts);
        note(&counts->pieces[run->lent.records % RECORD_BYTES], same);
    }
    note(&counts->returned[shape][wanted[INDEPENDENT].code], same);
    if (!same && counts->shown++ < DIFFERENCES_SHOWN)
        show_difference(run, got, &wanted[INDEPENDENT]);
    return same;
}

static void compare_kind(struct generator *g, const struct run_memory *memory, struct run_kind kind, struct run *run,
                         struct counts *counts)
{
    draw_rooms(g, kind, run);
    note(&counts->runs[kind.shape][kind.out][kind.codes], compare_run(memory, run, kind.shape, counts));
}

/* Every kind once, so that each is met however few are drawn; the records of a shape are the same under all lists. */
static void compare_every_kind(struct generator *g, const struct run_memory *memory, struct counts *counts)
{
    static struct run run;
    for (enum shape shape = 0; shape < SHAPES; shape++) {
        draw_run_of(g, shape, &run);
        for (enum room out = 0; out < OUT_ROOMS; out++)
            for (enum room codes = 0; codes < CODE_ROOMS; codes++) {
                struct run_kind kind = { shape, out, codes };
                if (is_possible(kind))
                    compare_kind(g, memory, kind, &run, counts);
            }
    }
}

static void compare_every_piece(struct generator *g, const struct run_memory *memory, struct counts *counts)
{
    static struct run run;
    for (size_t piece = 1; piece < RECORD_BYTES; piece++) {
        draw_run(g, below(g, 4) * RECORD_BYTES + piece, &run);
        compare_kind(g, memory, (struct run_kind){ WITH_PIECE, EXACT, EXACT }, &run, counts);
    }
}

static void compare_drawn(struct generator *g, const struct run_memory *memory, struct counts *counts)
{
    static struct run run;
    struct run_kind kind = any_kind(g);
    draw_run_of(g, kind.shape, &run);
    compare_kind(g, memory, kind, &run, counts);
}

int main(int argc, char **argv)
{
    if (argc != 3) {
        fprintf(stderr, "usage: runs SEED COUNT\n");
        return 2;
    }
    struct generator g = { .state = strtoull(argv[1], NULL, 10) };
    uint64_t count = strtoull(argv[2], NULL, 10);
    struct run_memory memory;
    if (!lend_run_memory(&memory)) {
        fprintf(stderr, "runs: no guarded memory\n");
        return 2;
    }
    static struct counts counts;
    compare_every_kind(&g, &memory, &counts);
    compare_every_piece(&g, &memory, &counts);
    for (uint64_t i = 0; i < count; i++)
        compare_drawn(&g, &memory, &counts);
    compare_claims(&g, &memory, &counts.claims);
    show_codes(&counts);
    struct sum sum = count_all(&counts);
    printf("%d passed, %d failed\n", sum.passed, sum.failed);
    return sum.failed != 0;
}
