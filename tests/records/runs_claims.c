/*
 * The call with lengths that no memory has. Where they are wrongly worked with, carried over the end of 64 bits, or of 32 or
 * of 16, or taken for negative, such lengths come out as small ones.
 */
#include "runs_claims.h"

#include "runs_drawn.h"
#include "runs_expected.h"

_Static_assert(SIZE_MAX == UINT64_MAX, "the lengths below are those of 64 bits");

#define TWO_TO(exponent) ((size_t)1 << (exponent))
#define BYTES_OF(count) ((size_t)RECORD_BYTES * (count))

/* After these come the 18 greatest, of which all but one are carried over the end by the 17 that round them up. */
static const size_t great_runs[GREAT_RUNS - RECORD_BYTES] = {
    BYTES_OF(4097),                                      /* the least that is too many */
    BYTES_OF(TWO_TO(16)),     BYTES_OF(TWO_TO(16) + 1),  /* their count in 16 bits: 0 and 1 */
    BYTES_OF(TWO_TO(32)),     BYTES_OF(TWO_TO(32) + 1),  /* their count in 32 bits */
    BYTES_OF(TWO_TO(29)),     BYTES_OF(TWO_TO(29) + 1),  /* the bytes of their numbers in 32 bits */
    BYTES_OF(TWO_TO(30) + 1),                            /* the bytes of their codes in 32 bits */
    TWO_TO(32),               TWO_TO(32) + RECORD_BYTES, /* the length itself in 32 bits */
    TWO_TO(61),               TWO_TO(61) + RECORD_BYTES, /* eight times the length in 64 bits */
    TWO_TO(63) - 1,           TWO_TO(63),                /* the greatest with a sign, and one more */
};

static size_t great_run(int i)
{
    int listed = GREAT_RUNS - RECORD_BYTES;
    return i < listed ? great_runs[i] : SIZE_MAX - (size_t)(i - listed);
}

/* Lists over real records, which are far shorter. */
static const size_t great_outputs[GREAT_OUTPUTS] = {
    SIZE_MAX, SIZE_MAX - 7, TWO_TO(63), TWO_TO(63) - 1, TWO_TO(61), TWO_TO(32) + 7, TWO_TO(32), TWO_TO(16),
};
static const size_t great_code_lists[GREAT_CODE_LISTS] = {
    SIZE_MAX,   SIZE_MAX / 4, TWO_TO(63), TWO_TO(63) - 1, TWO_TO(62) /* four bytes each: 0 */,
    TWO_TO(61), TWO_TO(32),   TWO_TO(30), TWO_TO(16),
};

/* Records in so many bytes, and lists of what they need. */
static void draw_with_lists(struct generator *g, size_t length, struct run *run)
{
    size_t count = records_in(length);
    draw_run(g, length, run);
    lend_lists(run, count * NUMBER_BYTES, count);
}

static bool replied_as_wanted(const struct run_memory *memory, const struct run *run, uint32_t *code)
{
    static struct reply wanted, got[ENDS];
    expect_reply(run, &wanted);
    *code = wanted.code;
    return does_as_wanted(memory, run, &wanted, got);
}

static void compare_refused(const struct run_memory *memory, const struct run *run, int i, struct claims *claims)
{
    uint32_t code;
    bool same = replied_as_wanted(memory, run, &code);
    if (code == REFUSED_SHORT_LIST)
        note(&claims->short_list[i], same);
    else
        note(&claims->too_many[i], same && code == REFUSED_TOO_MANY_RECORDS);
}

/*
 * Under every pair of lengths for its lists: what the run needs and about so much, and what it would seem to need by an
 * arithmetic that carries over the end.
 */
static void compare_great_run(const struct run_memory *memory, struct run *run, int i, struct claims *claims)
{
    size_t length = great_run(i), count = records_in(length);
    size_t rounded_up = (length + (RECORD_BYTES - 1)) / RECORD_BYTES, eightfold = length * NUMBER_BYTES / RECORD_BYTES;
    size_t bytes = count * NUMBER_BYTES;
    size_t in_32_bits = (uint32_t)count, in_16_bits = (uint16_t)count;
    const size_t outputs[] = {
        0, 1, NUMBER_BYTES, bytes - NUMBER_BYTES, bytes - 1, bytes, bytes + 1, TWO_TO(63), SIZE_MAX,
        eightfold, (uint32_t)bytes, NUMBER_BYTES * in_32_bits, NUMBER_BYTES * in_16_bits, NUMBER_BYTES * rounded_up,
    };
    const size_t code_lists[] = {
        0, 1, count - 1, count, count + 1, TWO_TO(62), SIZE_MAX, in_32_bits, in_16_bits, rounded_up,
    };
    run->told.records = length;
    for (size_t j = 0; j < sizeof outputs / sizeof *outputs; j++)
        for (size_t k = 0; k < sizeof code_lists / sizeof *code_lists; k++) {
            run->told.out = outputs[j];
            run->told.codes = code_lists[k];
            compare_refused(memory, run, i, claims);
        }
}

/* Over so many bytes of records, and lists of which no more is lent than they need. */
static void compare_great_lists(struct generator *g, const struct run_memory *memory, size_t length, struct claims *claims)
{
    static struct run run;
    for (int j = 0; j < GREAT_OUTPUTS; j++)
        for (int k = 0; k < GREAT_CODE_LISTS; k++) {
            uint32_t code;
            draw_with_lists(g, length, &run);
            run.told.out = great_outputs[j];
            run.told.codes = great_code_lists[k];
            bool same = replied_as_wanted(memory, &run, &code) && code == ANSWERED;
            note(&claims->answered_out[j], same);
            note(&claims->answered_codes[k], same);
        }
}

void compare_claims(struct generator *g, const struct run_memory *memory, struct claims *claims)
{
    static const size_t few_records[] = { 0, 1, RECORD_BYTES - 1, RECORD_BYTES, RECORD_BYTES + 1, 3 * RECORD_BYTES };
    static struct run run;
    draw_with_lists(g, 3 * RECORD_BYTES, &run);
    for (int i = 0; i < GREAT_RUNS; i++)
        compare_great_run(memory, &run, i, claims);
    for (size_t i = 0; i < sizeof few_records / sizeof *few_records; i++)
        compare_great_lists(g, memory, few_records[i], claims);
}

static bool has_passed_claim(const struct tally *tally, const char *what, size_t length, const char *of_it)
{
    if (has_passed(tally, true))
        return true;
    printf("%s of %zu claimed%s", what, length, of_it);
    show_failure(tally, true);
    return false;
}

/* Four checks: great runs by what is returned, and each of the two lists, under every great length. */
void count_claims(const struct claims *claims, struct sum *sum)
{
    bool short_list = true, too_many = true, out = true, codes = true;
    for (int i = 0; i < GREAT_RUNS; i++) {
        short_list = has_passed_claim(&claims->short_list[i], "records", great_run(i), ", a list too short") && short_list;
        too_many = has_passed_claim(&claims->too_many[i], "records", great_run(i), ", both lists long enough") && too_many;
    }
    for (int i = 0; i < GREAT_OUTPUTS; i++)
        out = has_passed_claim(&claims->answered_out[i], "an output", great_outputs[i], "") && out;
    for (int i = 0; i < GREAT_CODE_LISTS; i++)
        codes = has_passed_claim(&claims->answered_codes[i], "a code list", great_code_lists[i], "") && codes;
    count_check(sum, short_list);
    count_check(sum, too_many);
    count_check(sum, out);
    count_check(sum, codes);
}
