/* Counting and showing. */
#include "asked.h"

#include "../independent/bits.h"
#include "../independent/refusals.h"

#include <inttypes.h>
#include <stdio.h>

void record(struct asked *asked, bool passed)
{
    if (passed)
        asked->passed++;
    else
        asked->failed++;
    fflush(stdout);
}

bool same(struct answer a, struct answer b)
{
    return a.code == b.code && a.bits == b.bits;
}

void show_answer(const char *whose, struct answer answer)
{
    printf(" %s %" PRIu64 " ", whose, answer.code);
    if (answer.code != ANSWERED && answer.bits == NO_BITS)
        printf("refused");
    else
        printf("%016" PRIx64 " (%a)", answer.bits, number_of(answer.bits));
}

void add_code(struct tally *tally, uint64_t code)
{
    tally->of_code[code]++;
}

void add_tally(struct tally *sum, const struct tally *tally)
{
    for (size_t code = 0; code < CODES; code++)
        sum->of_code[code] += tally->of_code[code];
}

uint64_t questions_in(const struct tally *tally)
{
    uint64_t sum = 0;
    for (size_t code = 0; code < CODES; code++)
        sum += tally->of_code[code];
    return sum;
}

void show_tally(const struct tally *tally)
{
    const char *before = " (code";
    for (size_t code = 0; code < CODES; code++) {
        if (tally->of_code[code] == 0)
            continue;
        printf("%s %zu: %" PRIu64, before, code, tally->of_code[code]);
        before = ",";
    }
    printf(questions_in(tally) > 0 ? ")" : "");
}

void name_number(char name[NAME_ROOM], uint64_t number)
{
    const struct call *call = known_call(number);
    if (asks_a_fluid(call))
        snprintf(name, NAME_ROOM, "%s, %s", fluid_asked(number)->name, call->name);
    else
        snprintf(name, NAME_ROOM, "%s", call->name);
}
