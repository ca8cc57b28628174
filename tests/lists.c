/*
 * Asks the package, through C, and the independent implementation the same questions over lists, and compares code, density,
 * word and all places of both lists afterwards, bit for bit. The lent places of a list end where memory that may not be touched
 * begins.
 *
 *     lists SEED COUNT
 */
#include "guarded.h"
#include "lists/question.h"

#include <inttypes.h>
#include <stdio.h>
#include <stdlib.h>

enum { DIFFERENCES_SHOWN = 5 };

static const char *const call_names[LIST_CALLS] = {
    "plain from below", "plain from above", "preparation", "quick from below", "quick from above",
};

/* The codes that each call of each fluid must have met by the end, so that nothing is compared in name only. */
static const uint64_t codes_owed[LIST_CALLS] = {
    [PLAIN_BELOW] = 1 << 0 | 1 << 2 | 1 << 3 | 1 << 5 | 1 << 6 | 1 << 8,
    [PLAIN_ABOVE] = 1 << 0 | 1 << 2 | 1 << 3 | 1 << 5 | 1 << 6 | 1 << 8,
    [PREPARE] = 1 << 0 | 1 << 2 | 1 << 3 | 1 << 6 | 1 << 7,
    [QUICK_BELOW] = 1 << 0 | 1 << 2 | 1 << 3 | 1 << 5 | 1 << 6 | 1 << 7 | 1 << 8 | 1 << 16,
    [QUICK_ABOVE] = 1 << 0 | 1 << 2 | 1 << 3 | 1 << 5 | 1 << 6 | 1 << 7 | 1 << 8 | 1 << 16,
};

/* By a word's number, 0 where there is none. */
enum { WORDS = 4 };

/* One call of one fluid, or of none where the number is unknown. */
struct tally {
    uint64_t asked[CODES], named[WORDS], differing;
};

enum { NO_FLUID = FLUIDS };

/* By fluid and call. */
struct tallies {
    struct tally of[FLUIDS + 1][LIST_CALLS];
};

static struct tally *tally_of(struct tallies *tallies, const struct list_question *question)
{
    return &tallies->of[question->fluid < FLUIDS ? question->fluid : NO_FLUID][question->call];
}

/* The first place at which the lists differ, or PLACES. */
static int differing_place(const struct held *got, const struct held *wanted)
{
    for (int i = 0; i < PLACES; i++)
        if (got->G[i] != wanted->G[i] || got->L[i] != wanted->L[i])
            return i;
    return PLACES;
}

static bool same_reply(const struct list_reply *got, const struct list_reply *wanted)
{
    return got->code == wanted->code && got->bits == wanted->bits && got->word == wanted->word
        && differing_place(&got->held, &wanted->held) == PLACES;
}

static void show_difference(const struct list_question *question, const struct list_reply *got,
                            const struct list_reply *wanted)
{
    printf("  fluid %" PRIu32 ", %s at T %016" PRIx64 ", P %016" PRIx64 ", c %" PRIu64 ", lent %" PRIu64
           " and %" PRIu64 ":",
           question->fluid, call_names[question->call], question->T, question->P, question->c, question->lent_G,
           question->lent_L);
    printf(" code %" PRIu64 " %016" PRIx64 " word %" PRIu64, got->code, got->bits, got->word);
    printf(" but expected %" PRIu64 " %016" PRIx64 " word %" PRIu64, wanted->code, wanted->bits,
           wanted->word);
    int place = differing_place(&got->held, &wanted->held);
    if (place < PLACES)
        printf("; the lists differ first at place %d", place);
    printf("\n");
}

static void compare_all(const struct lent_memory *memory, uint64_t seed, uint64_t count, struct tallies *tallies)
{
    struct generator g = generator_of(seed, NULL, 0);
    uint64_t shown = 0;
    for (uint64_t i = 0; i < count; i++) {
        static struct list_question question;
        static struct list_reply got, wanted;
        next_list_question(&g, &question);
        ask_package(memory, &question, &got);
        answer_list_question(&question, &wanted);
        tally_of(tallies, &question)->asked[wanted.code]++;
        tally_of(tallies, &question)->named[wanted.word]++;
        if (same_reply(&got, &wanted))
            continue;
        tally_of(tallies, &question)->differing++;
        if (shown++ < DIFFERENCES_SHOWN)
            show_difference(&question, &got, &wanted);
    }
}

static const char *fluid_name(int fluid)
{
    return fluid == NO_FLUID ? "unknown fluids" : fluid_numbered((uint64_t)fluid)->name;
}

static uint64_t codes_owed_by(int fluid, int call)
{
    return fluid == NO_FLUID ? (uint64_t)1 << REFUSED_UNKNOWN_FLUID : codes_owed[call];
}

/* Each word must have been met by each search of each fluid. */
static bool words_missing(const struct tally *tally, int fluid, int call)
{
    bool missing = false;
    if (fluid == NO_FLUID || call == PREPARE)
        return false;
    for (int word = 1; word < WORDS; word++) {
        printf(", word %d: %" PRIu64, word, tally->named[word]);
        missing |= tally->named[word] == 0;
    }
    return missing;
}

/* One call of one fluid: how many questions were equal, by their codes, and whether a code or a word it owes never came. */
static bool show_call(const struct tally *tally, int fluid, int call)
{
    uint64_t asked = 0, missing = codes_owed_by(fluid, call);
    for (int code = 0; code < CODES; code++) {
        asked += tally->asked[code];
        if (tally->asked[code] > 0)
            missing &= ~((uint64_t)1 << code);
    }
    printf("%s, %s over lists: %" PRIu64 " questions, %" PRIu64 " differ", fluid_name(fluid), call_names[call],
           asked, tally->differing);
    for (int code = 0; code < CODES; code++)
        if (tally->asked[code] > 0)
            printf(", code %d: %" PRIu64, code, tally->asked[code]);
    for (int code = 0; code < CODES; code++)
        if (missing >> code & 1)
            printf(", code %d never", code);
    bool passed = !words_missing(tally, fluid, call) && tally->differing == 0 && missing == 0;
    printf(passed ? "\n" : ": FAILED\n");
    return passed;
}

/* How many calls of fluids did not pass. */
static int show_all(const struct tallies *tallies)
{
    int failed = 0;
    for (int fluid = 0; fluid <= NO_FLUID; fluid++)
        for (int call = 0; call < LIST_CALLS; call++)
            failed += !show_call(&tallies->of[fluid][call], fluid, call);
    return failed;
}

/* The lists of every fluid's top fit, with places after them. */
static bool tops_fit(void)
{
    for (uint64_t i = 0; i < FLUIDS; i++)
        if (fluid_numbered(i)->top + 1 >= PLACES)
            return false;
    return true;
}

static bool whole_number(const char *text, uint64_t *number)
{
    char *end;
    *number = strtoull(text, &end, 10);
    return *text >= '0' && *text <= '9' && *end == '\0';
}

int main(int count, char **words)
{
    uint64_t seed, questions;
    if (count != 3 || !whole_number(words[1], &seed) || !whole_number(words[2], &questions)) {
        fprintf(stderr, "usage: lists SEED COUNT\n");
        return EXIT_FAILURE;
    }
    struct lent_memory memory = {
        .G_end = guarded_end(PLACES * sizeof(double)),
        .L_end = guarded_end(PLACES * sizeof(double)),
    };
    if (memory.G_end == NULL || memory.L_end == NULL || !tops_fit()) {
        fprintf(stderr, "lists: no guarded memory, or too little for a fluid's lists\n");
        return EXIT_FAILURE;
    }
    static struct tallies tallies;
    compare_all(&memory, seed, questions, &tallies);
    int failed = show_all(&tallies);
    printf("%d passed, %d failed\n", (FLUIDS + 1) * LIST_CALLS - failed, failed);
    return failed == 0 ? EXIT_SUCCESS : EXIT_FAILURE;
}
