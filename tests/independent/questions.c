/* The probe's calls by number, each tied to what answers it. */
#include "questions.h"

#include "arithmetic.h"
#include "bits.h"
#include "density.h"
#include "equation.h"

enum elementary { EXP, LN, ROOT };

const struct call known_calls[] = {
    { 1, "exp", ELEMENTARY, EXP },
    { 2, "ln", ELEMENTARY, LN },
    { 3, "root", ELEMENTARY, ROOT },
    { 10, "pressure", PROPERTY, PRESSURE },
    { 11, "energy", PROPERTY, ENERGY },
    { 12, "enthalpy", PROPERTY, ENTHALPY },
    { 13, "isochoric heat capacity", PROPERTY, ISOCHORIC_HEAT_CAPACITY },
    { 14, "entropy", PROPERTY, ENTROPY },
    { 15, "Gibbs energy", PROPERTY, GIBBS },
    { 16, "Helmholtz energy", PROPERTY, HELMHOLTZ },
    { 17, "isobaric heat capacity", PROPERTY, ISOBARIC_HEAT_CAPACITY },
    { 18, "sound speed", PROPERTY, SOUND_SPEED },
    { 20, "saturation pressure estimate", ESTIMATE, SATURATION_PRESSURE },
    { 21, "liquid density estimate", ESTIMATE, LIQUID_DENSITY },
    { 22, "vapour density estimate", ESTIMATE, VAPOUR_DENSITY },
    { 30, "plain search from below", PLAIN_SEARCH, BELOW },
    { 31, "plain search from above", PLAIN_SEARCH, ABOVE },
    { 32, "quick search from below", QUICK_SEARCH, BELOW },
    { 33, "quick search from above", QUICK_SEARCH, ABOVE },
    { 34, "word of the plain search from below", PLAIN_WORD, BELOW },
    { 35, "word of the plain search from above", PLAIN_WORD, ABOVE },
};

const size_t known_calls_count = sizeof known_calls / sizeof *known_calls;

_Static_assert(sizeof known_calls / sizeof *known_calls * FLUIDS <= NUMBERS_ROOM, "too many numbers");

bool asks_a_fluid(const struct call *call)
{
    return call->family != ELEMENTARY;
}

bool takes_one_number(const struct call *call)
{
    return call->family == ELEMENTARY || call->family == ESTIMATE;
}

const struct call *known_call(uint64_t number)
{
    for (size_t i = 0; i < known_calls_count; i++) {
        const struct call *call = &known_calls[i];
        uint64_t asked = asks_a_fluid(call) ? number % FLUID_STRIDE : number;
        if (asked == call->number)
            return call;
    }
    return NULL;
}

const struct fluid *fluid_asked(uint64_t number)
{
    return fluid_numbered(number / FLUID_STRIDE);
}

bool is_known_number(uint64_t number)
{
    return known_call(number) != NULL && fluid_asked(number) != NULL;
}

struct numbers known_numbers(void)
{
    struct numbers all = { 0 };
    for (uint64_t number = 0; number < FLUIDS * FLUID_STRIDE; number++)
        if (is_known_number(number))
            all.number[all.count++] = number;
    return all;
}

static struct outcome elementary(enum elementary which, double x)
{
    switch (which) {
    case EXP:
        return exp_answer(x);
    case LN:
        return ln_answer(x);
    default:
        return root_answer(x);
    }
}

static struct outcome density_outcome(struct found found)
{
    return (struct outcome){ .code = found.code, .value = found.rho };
}

/* Lists prepared for the fluid at T, and kept while the fluid and the bits of T stay the same. */
static struct lists prepared_at(const struct fluid *fluid, double T)
{
    static double G[LIST_ROOM], L[LIST_ROOM];
    static const struct fluid *kept_fluid;
    static uint64_t kept_bits;
    struct lists lists = { .G = { G, LIST_ROOM }, .L = { L, LIST_ROOM } };
    if (kept_fluid != fluid || kept_bits != bits_of(T))
        prepare(fluid, T, fluid->top, lists);
    kept_fluid = fluid;
    kept_bits = bits_of(T);
    return lists;
}

static struct outcome outcome_of(const struct call *call, const struct fluid *fluid, double a, double b)
{
    switch (call->family) {
    case ELEMENTARY:
        return elementary(call->which, a);
    case PROPERTY:
        return property_at(fluid, call->which, a, b);
    case ESTIMATE:
        return estimate_at(fluid, call->which, a);
    case PLAIN_SEARCH:
        return density_outcome(plain_density(fluid, a, b, fluid->top, call->which));
    default:
        return density_outcome(
            quick_density(fluid, a, b, fluid->top, call->which, prepared_at(fluid, a)));
    }
}

static struct answer refusal(uint64_t code)
{
    return (struct answer){ .code = code, .bits = NO_BITS };
}

static struct answer word_answer(struct found found)
{
    if (found.code != ANSWERED)
        return refusal(found.code);
    return (struct answer){ .code = ANSWERED, .bits = word_number(found.word) };
}

struct answer answer_question(uint64_t number, uint64_t a, uint64_t b)
{
    const struct call *call = known_call(number);
    const struct fluid *fluid = fluid_asked(number);
    if (call == NULL)
        return refusal(REFUSED_UNKNOWN);
    if (fluid == NULL)
        return refusal(REFUSED_UNKNOWN_FLUID);
    if (call->family == PLAIN_WORD)
        return word_answer(plain_density(fluid, number_of(a), number_of(b), fluid->top, call->which));
    struct outcome outcome = outcome_of(call, fluid, number_of(a), number_of(b));
    if (outcome.code != ANSWERED)
        return refusal(outcome.code);
    return (struct answer){ .code = ANSWERED, .bits = bits_of(outcome.value) };
}
