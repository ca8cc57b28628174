/* The random questions: the same from one seed, mostly permitted, of every number, meeting each code of a call. */
#include "../generator.h"
#include "../independent/bits.h"
#include "../independent/density.h"
#include "../independent/equation.h"
#include "check.h"

#include <inttypes.h>
#include <string.h>

enum { QUESTIONS = 5000, EACH_AT_LEAST = 10 };

/* What is met by the random questions of one number. */
struct met {
    uint64_t number;
    unsigned of_code[CODES], of_one_fluid;
};

/* Permitted by one fluid and not by another. */
static bool of_one_fluid(double T)
{
    unsigned permitting = 0;
    for (uint64_t i = 0; i < FLUIDS; i++)
        permitting += in_range(fluid_numbered(i)->T, T);
    return 0 < permitting && permitting < FLUIDS;
}

/* A search itself would take too long. No cell at all is refused after its inputs, and so stands for what would be searched. */
static uint64_t code_of(struct question question)
{
    double T = number_of(question.first), P = number_of(question.second);
    const struct call *call = known_call(question.call);
    const struct fluid *fluid = fluid_asked(question.call);
    if (call != NULL && fluid != NULL && call->family >= PLAIN_SEARCH)
        return plain_density(fluid, T, P, 0, BELOW).code;
    return answer_question(question.call, question.first, question.second).code;
}

static struct met met_by(uint64_t number)
{
    struct met met = { .number = number };
    struct generator g = generator_of(number, &number, 1);
    for (int i = 0; i < QUESTIONS; i++) {
        struct question question = next_question(&g);
        met.of_code[code_of(question)]++;
        met.of_one_fluid += of_one_fluid(number_of(question.first));
    }
    return met;
}

static void check_met(const struct met *met, uint64_t code)
{
    check(met->of_code[code] >= EACH_AT_LEAST,
          "number %" PRIu64 ": code %" PRIu64 " is met by %u of %d random questions", met->number, code,
          met->of_code[code], QUESTIONS);
}

static void check_permitted(const struct met *met)
{
    unsigned outside = met->of_code[REFUSED_NOT_A_NUMBER] + met->of_code[REFUSED_TEMPERATURE]
                       + met->of_code[REFUSED_DENSITY];
    check(outside < QUESTIONS / 5, "number %" PRIu64 ": %u of %d random questions are not permitted",
          met->number, outside, QUESTIONS);
    check(met->of_one_fluid >= EACH_AT_LEAST,
          "number %" PRIu64 ": %u of %d temperatures are one fluid's alone", met->number, met->of_one_fluid,
          QUESTIONS);
}

static void check_elementary_codes(const struct met *met)
{
    check_met(met, REFUSED_NOT_FINITE);
}

static void check_property_codes(const struct met *met)
{
    uint64_t call = known_call(met->number)->number;
    check_permitted(met);
    check_met(met, REFUSED_TEMPERATURE);
    check_met(met, REFUSED_DENSITY);
    /* Calls 14 to 16 have ln δ, 17 and 18 divide by Q or V, 18 takes a root. */
    if (14 <= call && call <= 16)
        check_met(met, REFUSED_DENSITY_ZERO);
    if (call >= 17)
        check_met(met, REFUSED_UNSTABLE);
    if (14 <= call && call != 17)
        check_met(met, REFUSED_NOT_FINITE);
}

static void check_estimate_codes(const struct met *met)
{
    check_permitted(met);
    check_met(met, REFUSED_TEMPERATURE);
    check_met(met, REFUSED_ABOVE_CRITICAL);
}

static void check_search_codes(const struct met *met)
{
    check_permitted(met);
    check_met(met, REFUSED_TEMPERATURE);
    check_met(met, REFUSED_PRESSURE);
}

static void check_codes(uint64_t number)
{
    struct met met = met_by(number);
    bool searches = false;
    switch (known_call(number)->family) {
    case ELEMENTARY:
        check_elementary_codes(&met);
        break;
    case PROPERTY:
        check_property_codes(&met);
        break;
    case ESTIMATE:
        check_estimate_codes(&met);
        break;
    default:
        searches = true;
        check_search_codes(&met);
    }
    check_met(&met, searches ? REFUSED_TOP_CELL : ANSWERED);
    check_met(&met, REFUSED_NOT_A_NUMBER);
}

/* The word's questions meet each word, and below Tc densities close to the critical one on both sides of it. */
static void check_words_met(uint64_t number)
{
    enum { ASKED = 500 };
    const struct call *call = known_call(number);
    const struct fluid *f = fluid_asked(number);
    struct generator g = generator_of(number, &number, 1);
    unsigned of_word[LIQUID + 1] = { 0 }, close_vapours = 0, close_liquids = 0;
    for (int i = 0; i < ASKED; i++) {
        struct question question = next_question(&g);
        struct found found
            = plain_density(f, number_of(question.first), number_of(question.second), f->top, call->which);
        bool close = fabs(found.rho - f->rhoc) < 0.01;
        of_word[found.word]++;
        close_vapours += found.word == VAPOUR && close;
        close_liquids += found.word == LIQUID && close;
    }
    for (enum word word = FLUID; word <= LIQUID; word++)
        check(of_word[word] >= EACH_AT_LEAST, "number %" PRIu64 ": word %d is met by %u of %d random questions",
              number, word, of_word[word], ASKED);
    check(close_vapours >= EACH_AT_LEAST && close_liquids >= EACH_AT_LEAST,
          "number %" PRIu64 ": %u vapours and %u liquids of %d close to the critical density", number,
          close_vapours, close_liquids, ASKED);
}

/* A fluid whose number becomes a known one where it is cut to 32 bits. */
static bool cut_to_known(uint64_t number)
{
    uint64_t fluid = number / FLUID_STRIDE;
    return fluid_numbered(fluid) == NULL && fluid_numbered((uint32_t)fluid) != NULL;
}

static void check_unknown_numbers(void)
{
    const uint64_t unknown = UNKNOWN_NUMBERS;
    struct met met = { .number = unknown };
    struct generator g = generator_of(245, &unknown, 1);
    unsigned cut = 0, no_call_of_fluid = 0;
    for (int i = 0; i < QUESTIONS; i++) {
        struct question question = next_question(&g);
        uint64_t code = code_of(question);
        met.of_code[code]++;
        cut += code == REFUSED_UNKNOWN_FLUID && cut_to_known(question.call);
        no_call_of_fluid += code == REFUSED_UNKNOWN && question.call / FLUID_STRIDE == FLUIDS - 1;
    }
    unsigned calls = met.of_code[REFUSED_UNKNOWN], fluids = met.of_code[REFUSED_UNKNOWN_FLUID];
    check(calls + fluids == QUESTIONS, "unknown numbers: %u of %d are", calls + fluids, QUESTIONS);
    check_met(&met, REFUSED_UNKNOWN);
    check_met(&met, REFUSED_UNKNOWN_FLUID);
    check(cut >= EACH_AT_LEAST, "%u unknown fluids are known ones in 32 bits", cut);
    check(no_call_of_fluid >= EACH_AT_LEAST, "%u unknown calls are of the last fluid", no_call_of_fluid);
}

static bool same_question(struct question a, struct question b)
{
    return a.call == b.call && a.first == b.first && a.second == b.second;
}

/* As the differential test mixes them: from one seed the same again, and every number by turns. */
static void check_mixed(void)
{
    struct numbers all = known_numbers();
    uint64_t numbers[NUMBERS_ROOM + 1];
    unsigned differing = 0, drawn[FLUIDS * FLUID_STRIDE] = { 0 }, unknown = 0;
    memcpy(numbers, all.number, sizeof all.number);
    numbers[all.count] = UNKNOWN_NUMBERS;
    struct generator g = generator_of(245, numbers, all.count + 1);
    struct generator again = generator_of(245, numbers, all.count + 1);
    for (int i = 0; i < QUESTIONS; i++) {
        struct question question = next_question(&g);
        differing += !same_question(question, next_question(&again));
        if (is_known_number(question.call))
            drawn[question.call]++;
        else
            unknown++;
    }
    check(differing == 0, "from one seed %u of %d questions differ", differing, QUESTIONS);
    for (size_t i = 0; i < all.count; i++)
        check(drawn[all.number[i]] >= EACH_AT_LEAST, "number %" PRIu64 " is drawn %u times of %d", all.number[i],
              drawn[all.number[i]], QUESTIONS);
    check(unknown >= EACH_AT_LEAST, "unknown numbers are drawn %u times of %d", unknown, QUESTIONS);
}

void check_generator(void)
{
    struct numbers all = known_numbers();
    check_mixed();
    check_unknown_numbers();
    for (size_t i = 0; i < all.count; i++) {
        check_codes(all.number[i]);
        if (known_call(all.number[i])->family == PLAIN_WORD)
            check_words_met(all.number[i]);
    }
}
