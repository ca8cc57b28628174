/* The call asked about a run, at both ends of the memory. */
#include "runs_asked.h"

#include "../../include/verriblom.h"
#include "runs_expected.h"

#include <string.h>

struct areas {
    uint8_t *records, *out;
    uint32_t *codes;
};

/* An area of any kind has room in so many bytes, and codes after such areas are aligned. */
_Static_assert((int)MOST_OUT_BYTES <= (int)MOST_RECORD_BYTES && MOST_CODES * sizeof(uint32_t) <= MOST_RECORD_BYTES
                   && MOST_RECORD_BYTES % sizeof(uint32_t) == 0,
               "the untouchable areas are too short or not aligned");

bool lend_run_memory(struct run_memory *memory)
{
    *memory = (struct run_memory){
        .records = guarded_pages(MOST_RECORD_BYTES),
        .out = guarded_pages(MOST_OUT_BYTES),
        .codes = guarded_pages(MOST_CODES * sizeof(uint32_t)),
        .untouchable = untouchable(3 * MOST_RECORD_BYTES),
    };
    return memory->records.end != NULL && memory->out.end != NULL && memory->codes.end != NULL && memory->untouchable != NULL;
}

/* The end of pages and their beginning are both aligned for codes, and a whole number of codes stands between. */
static struct areas areas_at(const struct run_memory *memory, int end, const struct lengths *lent)
{
    if (end == 0)
        return (struct areas){ memory->records.begin, memory->out.begin, (uint32_t *)memory->codes.begin };
    return (struct areas){ memory->records.end - lent->records, memory->out.end - lent->out,
                           (uint32_t *)memory->codes.end - lent->codes };
}

/* A third of the untouchable memory for each, so that they do not overlap. */
static struct areas areas_nowhere(const struct run_memory *memory)
{
    uint8_t *records = memory->untouchable, *out = records + MOST_RECORD_BYTES;
    return (struct areas){ records, out, (uint32_t *)(out + MOST_RECORD_BYTES) };
}

static uint32_t call(const struct areas *areas, const struct lengths *told)
{
    return verriblom_answers(areas->records, told->records, areas->out, told->out, areas->codes, told->codes);
}

static void ask(const struct areas *areas, const struct run *run, struct reply *got)
{
    const struct lengths *lent = &run->lent;
    memcpy(areas->records, run->records, lent->records);
    memcpy(areas->out, run->out, lent->out);
    memcpy(areas->codes, run->codes, lent->codes * sizeof *run->codes);
    got->code = call(areas, &run->told);
    got->records_kept = memcmp(areas->records, run->records, lent->records) == 0;
    memcpy(got->out, areas->out, lent->out);
    memcpy(got->codes, areas->codes, lent->codes * sizeof *run->codes);
}

/* A reply in which nothing is written yet. */
static void begin_reply(const struct run *run, struct reply *reply)
{
    reply->records_kept = true;
    memcpy(reply->out, run->out, run->lent.out);
    memcpy(reply->codes, run->codes, run->lent.codes * sizeof *run->codes);
}

void expect_reply(const struct run *run, struct reply *wanted)
{
    begin_reply(run, wanted);
    wanted->code = expected_answers(run->records, run->told.records, wanted->out, run->told.out, wanted->codes,
                                    run->told.codes);
}

void ask_singly(const struct run *run, struct reply *single)
{
    begin_reply(run, single);
    single->code = ANSWERED;
    for (size_t k = 0; k < records_in(run->told.records); k++)
        single->codes[k] = verriblom_answer(run->records + k * RECORD_BYTES, record_length(run->told.records, k),
                                            single->out + k * NUMBER_BYTES, NUMBER_BYTES);
}

bool same_reply(const struct run *run, const struct reply *one, const struct reply *other)
{
    return one->code == other->code && one->records_kept == other->records_kept
        && memcmp(one->out, other->out, run->lent.out) == 0
        && memcmp(one->codes, other->codes, run->lent.codes * sizeof *one->codes) == 0;
}

/* Nothing is read or written where a run is refused, and where it has no records. */
static bool touches_nothing(const struct run *run, const struct reply *wanted)
{
    return wanted->code != ANSWERED || run->told.records == 0;
}

bool does_as_wanted(const struct run_memory *memory, const struct run *run, const struct reply *wanted, struct reply got[ENDS])
{
    bool same = true;
    for (int end = 0; end < ENDS; end++) {
        struct areas areas = areas_at(memory, end, &run->lent);
        ask(&areas, run, &got[end]);
        same = same_reply(run, &got[end], wanted) && same;
    }
    struct areas nowhere = areas_nowhere(memory);
    return same && (!touches_nothing(run, wanted) || call(&nowhere, &run->told) == wanted->code);
}
