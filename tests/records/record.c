/* One record's answer. */
#include "record.h"

#include "../independent/bits.h"
#include "../independent/density.h"
#include "../independent/equation.h"
#include "../wire.h"

#include <stdbool.h>
#include <string.h>

static const char *const known_marks[] = {
    "TD", "TB", "TA", "TP", "TN", "FD", "FB", "FA", "FP", "FN",
};

const char *record_mark(const uint8_t *record, size_t length)
{
    if (length != RECORD_BYTES)
        return "--";
    for (size_t k = 0; k < sizeof known_marks / sizeof *known_marks; k++)
        if (memcmp(record, known_marks[k], 2) == 0)
            return known_marks[k];
    return "??";
}

int record_fluid(const uint8_t *record, size_t length)
{
    switch (record_mark(record, length)[0]) {
    case 'T':
        return 0;
    case 'F':
        return 1;
    default:
        return NO_FLUID;
    }
}

const char *record_fluid_name(int fluid)
{
    return fluid == NO_FLUID ? "no known mark" : fluid_numbered((uint64_t)fluid)->name;
}

/* M-100: "Old records mean R-245ca; a record for the other fluid has F in place of T in its mark." */
static const struct fluid *marked_fluid(const char *mark)
{
    return mark[0] == 'F' ? &r245fa : &r245ca;
}

/* 2, 3, and 4 or 5, before the work. */
static uint64_t input_refusal(const struct fluid *fluid, bool density_given, double T, double x)
{
    if (!isfinite(T) || !isfinite(x))
        return REFUSED_NOT_A_NUMBER;
    if (!in_range(fluid->T, T))
        return REFUSED_TEMPERATURE;
    if (density_given)
        return in_range(fluid->rho, x) ? ANSWERED : REFUSED_DENSITY;
    return in_range(fluid->P, x) ? ANSWERED : REFUSED_PRESSURE;
}

static struct outcome searched(const struct fluid *fluid, double T, double P, enum side side)
{
    struct found found = plain_density(fluid, T, P, fluid->top, side);
    return found.code == ANSWERED ? answered(found.rho) : refused(found.code);
}

struct outcome record_outcome(const uint8_t *record, size_t length, size_t room)
{
    const char *mark = record_mark(record, length);
    if (mark[0] == '-')
        return refused(REFUSED_CUT_SHORT);
    if (mark[0] == '?')
        return refused(REFUSED_UNKNOWN);
    if (mark[1] == 'N')
        return refused(REFUSED_NO_READING);
    const struct fluid *fluid = marked_fluid(mark);
    double T = number_of(get_number(record + 2));
    double x = number_of(get_number(record + 10));
    uint64_t refusal = input_refusal(fluid, mark[1] == 'D', T, x);
    if (refusal != ANSWERED)
        return refused(refusal);
    if (room < NUMBER_BYTES)
        return refused(REFUSED_SHORT_LIST);
    if (mark[1] == 'D')
        return property_at(fluid, PRESSURE, T, x);
    return searched(fluid, T, x, mark[1] == 'A' ? ABOVE : BELOW);
}
