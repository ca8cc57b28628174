/* Questions by number. */
#include "../independent/questions.h"

#include "../independent/arithmetic.h"
#include "../independent/bits.h"
#include "../independent/density.h"
#include "../independent/equation.h"
#include "check.h"

#include <inttypes.h>
#include <stdio.h>
#include <stdlib.h>
#include <string.h>

static bool refuses(uint64_t code, struct answer answer)
{
    return answer.code == code && answer.bits == NO_BITS;
}

static bool gives(struct outcome wanted, struct answer answer)
{
    return wanted.code == ANSWERED && answer.code == ANSWERED
           && answer.bits == bits_of(wanted.value);
}

static struct answer asked(uint64_t number, double a, double b)
{
    return answer_question(number, bits_of(a), bits_of(b));
}

static void check_elementary(void)
{
    check(gives(exp_answer(2), asked(1, 2, NAN)), "call 1 is exp");
    check(gives(ln_answer(2), asked(2, 2, NAN)), "call 2 is ln");
    check(gives(root_answer(2), asked(3, 2, NAN)), "call 3 is root");
    check(refuses(12, asked(1, 701, 0)), "a refusal has all bits set beside it");
    check(refuses(2, answer_question(1, 0xfff4000000000001, 0)), "a NaN pattern is a NaN");
}

/* Fluid 0 is asked by the calls' numbers and fluid 1 by those and 100. */
static const struct {
    const struct fluid *fluid;
    int numbers_from;
} asked_fluids[] = { { &r245ca, 0 }, { &r245fa, 100 } };

enum { ASKED_FLUIDS = sizeof asked_fluids / sizeof *asked_fluids };

static void check_properties(const struct fluid *f, int from)
{
    for (int property = 0; property < PROPERTIES; property++)
        check(gives(property_at(f, property, 420, 1), asked(from + 10 + property, 420, 1)),
              "number %d is property %d of %s", from + 10 + property, property, f->name);
    for (int estimate = 0; estimate < ESTIMATES; estimate++)
        check(gives(estimate_at(f, estimate, 300), asked(from + 20 + estimate, 300, NAN)),
              "number %d is estimate %d of %s", from + 20 + estimate, estimate, f->name);
}

static struct outcome plain(const struct fluid *f, double T, double P, enum side side)
{
    return answered(plain_density(f, T, P, f->top, side).rho);
}

static void check_searches_at(const struct fluid *f, int from, double T)
{
    double P = 1e6;
    check(gives(plain(f, T, P, BELOW), asked(from + 30, T, P)), "number %d at %g K", from + 30, T);
    check(gives(plain(f, T, P, ABOVE), asked(from + 31, T, P)), "number %d at %g K", from + 31, T);
    check(gives(plain(f, T, P, BELOW), asked(from + 32, T, P)), "number %d at %g K", from + 32, T);
    check(gives(plain(f, T, P, ABOVE), asked(from + 33, T, P)), "number %d at %g K", from + 33, T);
}

static bool says(uint64_t word, struct answer answer)
{
    return answer.code == ANSWERED && answer.bits == word;
}

/* 1 fluid, 2 vapour, 3 liquid: by the density, whichever side it was searched from. */
static void check_words(const struct fluid *f, int from)
{
    check(says(2, asked(from + 34, 300, 1e5)), "number %d at 300 K, 0.1 MPa: vapour", from + 34);
    check(says(3, asked(from + 35, 300, 1e5)), "number %d at 300 K, 0.1 MPa: liquid", from + 35);
    check(says(3, asked(from + 34, 300, 1e6)), "number %d at 300 K, 1 MPa: liquid", from + 34);
    check(says(2, asked(from + 35, f->Tc - 2, 1e6)), "number %d 2 K below Tc, 1 MPa: vapour", from + 35);
    check(says(1, asked(from + 34, f->Tc, 1e6)), "number %d at Tc: fluid", from + 34);
    check(says(1, asked(from + 35, f->Tc, 1e6)), "number %d at Tc: fluid", from + 35);
    check(refuses(2, asked(from + 34, NAN, 0)), "number %d of NaN gets 2", from + 34);
    check(refuses(5, asked(from + 35, 300, 0.5)), "number %d at P 0.5 gets 5", from + 35);
}

/* The kept preparation must go when T changes or the fluid does, and come back. */
static void check_searches(void)
{
    static const double temperatures[] = { 300, 300, 435, 300 };
    for (size_t i = 0; i < sizeof temperatures / sizeof *temperatures; i++)
        for (int k = 0; k < ASKED_FLUIDS; k++)
            check_searches_at(asked_fluids[k].fluid, asked_fluids[k].numbers_from, temperatures[i]);
    for (int k = 0; k < ASKED_FLUIDS; k++) {
        int from = asked_fluids[k].numbers_from;
        check(refuses(2, asked(from + 32, NAN, 1e6)), "number %d of NaN gets 2", from + 32);
        check(refuses(2, asked(from + 33, 500, NAN)), "number %d: 2 of P comes before 3", from + 33);
        check(refuses(5, asked(from + 33, 300, 0.5)), "number %d at P 0.5 gets 5", from + 33);
    }
}

/* A temperature, density or pressure that one fluid permits and the other does not. */
static void check_own_limits(void)
{
    check(refuses(3, asked(10, r245fa.T.least, 1)) && asked(110, r245fa.T.least, 1e-5).code == ANSWERED,
          "R-245fa's least temperature is its own");
    check(refuses(3, asked(110, r245ca.T.greatest, 1)) && asked(10, r245ca.T.greatest, 1).code == ANSWERED,
          "R-245ca's greatest temperature is its own");
    check(refuses(4, asked(10, 300, r245fa.rho.greatest))
              && asked(110, 300, r245fa.rho.greatest).code == ANSWERED,
          "R-245fa's greatest density is its own");
    check(refuses(5, asked(30, 300, r245fa.P.greatest))
              && asked(130, 300, r245fa.P.greatest).code == ANSWERED,
          "R-245fa's greatest pressure is its own");
    check(refuses(13, asked(120, nextafter(r245fa.Tc, INFINITY), 0)) && asked(20, r245fa.Tc, 0).code == ANSWERED,
          "R-245fa's critical temperature is its own");
}

/* The probe's calls, apart from the table that answers; 1 to 3 are of no fluid. */
static const uint64_t calls[] = { 1,  2,  3,  10, 11, 12, 13, 14, 15, 16,
                                  17, 18, 20, 21, 22, 30, 31, 32, 33, 34, 35 };

enum { CALLS = sizeof calls / sizeof *calls, OF_NO_FLUID = 3, SMALL_NUMBERS = 1000 };

static bool is_call_of_a_fluid(uint64_t call)
{
    for (size_t i = OF_NO_FLUID; i < CALLS; i++)
        if (calls[i] == call)
            return true;
    return false;
}

/* What is owed to a number before the inputs are looked at, read from its decimal digits: the last two are the call. */
static uint64_t code_by_digits(uint64_t number)
{
    char digits[32];
    int length = snprintf(digits, sizeof digits, "%03" PRIu64, number);
    bool of_fluid = is_call_of_a_fluid(strtoull(digits + length - 2, NULL, 10));
    digits[length - 2] = '\0';
    if (!of_fluid)
        return 1 <= number && number <= OF_NO_FLUID ? ANSWERED : REFUSED_UNKNOWN;
    return strcmp(digits, "0") == 0 || strcmp(digits, "1") == 0 ? ANSWERED : REFUSED_UNKNOWN_FLUID;
}

/* NaN is refused by every call with 2, and only after 14 and 17. */
static bool as_by_digits(uint64_t number)
{
    uint64_t code = code_by_digits(number);
    return refuses(code == ANSWERED ? REFUSED_NOT_A_NUMBER : code, asked(number, NAN, NAN));
}

static void check_numbers(void)
{
    static const struct {
        uint64_t number, code;
    } picked[] = {
        { 0, 14 },
        { 4, 14 },
        { 99, 14 },
        { 101, 14 },
        { 103, 14 },
        { 136, 14 },
        { 199, 14 },
        { 210, 17 },
        { 233, 17 },
        { 234, 17 },
        { 299, 14 },
        { 300, 14 },
        { 9910, 17 },
        { ((uint64_t)1 << 32) * 100 + 10, 17 },
        { (((uint64_t)1 << 32) + 1) * 100 + 10, 17 },
        { ((uint64_t)1 << 57) * 100 + 10, 17 },
        { ((uint64_t)1 << 57) * 100 + 99, 14 },
        { UINT64_MAX, 17 }, /* it ends in 15 */
    };
    for (size_t i = 0; i < sizeof picked / sizeof *picked; i++)
        check(refuses(picked[i].code, asked(picked[i].number, 300, 1))
                  && refuses(picked[i].code, asked(picked[i].number, NAN, NAN)),
              "number %" PRIu64 " gets %" PRIu64 ", and no 2 before it", picked[i].number, picked[i].code);
    unsigned others = 0;
    for (uint64_t number = 0; number < SMALL_NUMBERS; number++)
        others += !as_by_digits(number);
    check(others == 0, "of the numbers below %d %u are not by their digits", SMALL_NUMBERS, others);
    others = 0;
    for (size_t i = 0; i < CALLS; i++)
        for (int bit = 8; bit < 64; bit++)
            others += !as_by_digits(calls[i] | (uint64_t)1 << bit);
    check(others == 0, "of the calls' numbers with one higher bit %u are not by their digits", others);
}

static void check_known(void)
{
    struct numbers all = known_numbers();
    size_t wanted = OF_NO_FLUID + (CALLS - OF_NO_FLUID) * ASKED_FLUIDS;
    check(known_calls_count == CALLS, "%zu calls are known", known_calls_count);
    check(all.count == wanted, "%zu numbers are known", all.count);
    for (size_t i = 0; i < all.count; i++)
        check(code_by_digits(all.number[i]) == ANSWERED && asked(all.number[i], 300, 1).code != 14,
              "number %" PRIu64 " is known", all.number[i]);
}

void check_questions(void)
{
    check_elementary();
    for (int k = 0; k < ASKED_FLUIDS; k++)
        check_properties(asked_fluids[k].fluid, asked_fluids[k].numbers_from);
    check_searches();
    for (int k = 0; k < ASKED_FLUIDS; k++)
        check_words(asked_fluids[k].fluid, asked_fluids[k].numbers_from);
    check_own_limits();
    check_known();
    check_numbers();
}
