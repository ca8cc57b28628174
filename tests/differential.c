/*
 * Asks the probe and the independent implementation the same questions and
 * compares code and bits.
 *
 *     differential PROBE SEED COUNT [WORD...]
 *
 * COUNT questions for each call of each fluid. A WORD is the number of a call
 * of a fluid, the name of a group of calls (elementary, properties, estimates,
 * searches, words), or one of unknown (numbers that are no call or ask no fluid),
 * mixed (all calls of all fluids by turns), second (a call of one number does not
 * look at the second) and pieces (inputs of 0 to 49 bytes). Without a WORD
 * everything is asked.
 */
#include "differential/asked.h"
#include "generator.h"

#include <inttypes.h>
#include <stdio.h>
#include <stdlib.h>
#include <string.h>

struct group {
    const char *name;
    enum family first, last;
};

static const struct group groups[] = {
    { "elementary", ELEMENTARY, ELEMENTARY },
    { "properties", PROPERTY, PROPERTY },
    { "estimates", ESTIMATE, ESTIMATE },
    { "searches", PLAIN_SEARCH, QUICK_SEARCH },
    { "words", PLAIN_WORD, PLAIN_WORD },
};

enum { GROUPS = sizeof groups / sizeof *groups };

static bool in_group(const struct group *group, const struct call *call)
{
    return group->first <= call->family && call->family <= group->last;
}

static void compare_number(struct asked *asked, uint64_t number)
{
    char name[NAME_ROOM];
    name_number(name, number);
    compare_stream(asked, name, &number, 1);
}

/* A group without a call would pass in name only. */
static void expect_calls(struct asked *asked, const char *name, size_t calls)
{
    if (calls > 0)
        return;
    printf("%s: FAILED, there is no such call\n", name);
    record(asked, false);
}

/* Each call of the group for each fluid, and their sum. */
static void compare_group(struct asked *asked, const struct group *group)
{
    struct numbers all = known_numbers();
    size_t calls = 0;
    asked->tally = (struct tally){ 0 };
    for (size_t i = 0; i < all.count; i++)
        if (in_group(group, known_call(all.number[i]))) {
            compare_number(asked, all.number[i]);
            calls++;
        }
    expect_calls(asked, group->name, calls);
    printf("%s: %" PRIu64 " questions in all", group->name, questions_in(&asked->tally));
    show_tally(&asked->tally);
    printf("\n");
    fflush(stdout);
}

static void compare_unknown(struct asked *asked)
{
    static const uint64_t unknown[] = { UNKNOWN_NUMBERS };
    compare_stream(asked, "unknown calls and fluids", unknown, 1);
}

static void compare_mixed(struct asked *asked)
{
    struct numbers all = known_numbers();
    uint64_t numbers[NUMBERS_ROOM + 1];
    memcpy(numbers, all.number, sizeof all.number);
    numbers[all.count] = UNKNOWN_NUMBERS;
    compare_stream(asked, "all calls of all fluids mixed", numbers, all.count + 1);
}

static void compare_seconds(struct asked *asked)
{
    struct numbers all = known_numbers();
    size_t calls = 0;
    for (size_t i = 0; i < all.count; i++)
        if (takes_one_number(known_call(all.number[i]))) {
            compare_second(asked, all.number[i]);
            calls++;
        }
    expect_calls(asked, "second number", calls);
}

static void compare_everything(struct asked *asked)
{
    for (size_t i = 0; i < GROUPS; i++)
        compare_group(asked, &groups[i]);
    compare_unknown(asked);
    compare_mixed(asked);
    compare_seconds(asked);
    compare_pieces(asked);
}

static const struct group *group_named(const char *name)
{
    for (size_t i = 0; i < GROUPS; i++)
        if (strcmp(groups[i].name, name) == 0)
            return &groups[i];
    return NULL;
}

static bool whole_number(const char *text, uint64_t *number)
{
    char *end;
    *number = strtoull(text, &end, 10);
    return *text >= '0' && *text <= '9' && *end == '\0';
}

/* False where the word names nothing that can be asked. */
static bool compare_named(struct asked *asked, const char *name)
{
    uint64_t number;
    const struct group *group = group_named(name);
    if (group != NULL)
        compare_group(asked, group);
    else if (strcmp(name, "unknown") == 0)
        compare_unknown(asked);
    else if (strcmp(name, "mixed") == 0)
        compare_mixed(asked);
    else if (strcmp(name, "second") == 0)
        compare_seconds(asked);
    else if (strcmp(name, "pieces") == 0)
        compare_pieces(asked);
    else if (whole_number(name, &number) && is_known_number(number))
        compare_number(asked, number);
    else
        return false;
    return true;
}

static int usage(void)
{
    fprintf(stderr, "usage: differential PROBE SEED COUNT [NUMBER|elementary|properties|estimates|"
                    "searches|words|unknown|mixed|second|pieces]...\n");
    return EXIT_FAILURE;
}

int main(int count, char **words)
{
    struct asked asked = { 0 };
    if (count < 4 || !whole_number(words[2], &asked.seed) || !whole_number(words[3], &asked.count)
        || asked.count == 0)
        return usage();
    asked.probe = words[1];
    if (count == 4)
        compare_everything(&asked);
    for (int i = 4; i < count; i++)
        if (!compare_named(&asked, words[i]))
            return usage();
    printf("%" PRIu64 " passed, %" PRIu64 " failed\n", asked.passed, asked.failed);
    return asked.failed == 0 ? EXIT_SUCCESS : EXIT_FAILURE;
}
