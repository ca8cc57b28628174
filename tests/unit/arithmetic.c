/* exp, ln, root and powers against 01's cases and the C library's functions. */
#include "../independent/arithmetic.h"
#include "../independent/bits.h"
#include "../splitmix.h"
#include "check.h"

enum { POINTS = 200000 };

static double upward(double x)
{
    return nextafter(x, INFINITY);
}

static double downward(double x)
{
    return nextafter(x, -INFINITY);
}

static void check_cases(void)
{
    check(answered_with(1, exp_answer(0)), "case a: exp 0 is 1");
    check(answered_with(0, ln_answer(1)), "case b: ln 1 is 0");
    check(answered_with(256, root_answer(65536)), "case c: root 65536 is 256");
    check(refused_with(12, exp_answer(701)), "exp 701 gets 12");
    check(refused_with(12, exp_answer(-701)), "exp -701 gets 12");
}

typedef struct outcome elementary(double x);

static void check_range(const char *name, elementary *function, double least, double greatest)
{
    check(is_answered(function(least)), "%s answers at the least of its range", name);
    check(is_answered(function(greatest)), "%s answers at the greatest of its range", name);
    check(refused_with(12, function(downward(least))), "%s gets 12 just below", name);
    check(refused_with(12, function(upward(greatest))), "%s gets 12 just above", name);
    check(refused_with(2, function(NAN)), "%s of NaN gets 2", name);
    check(refused_with(2, function(INFINITY)), "%s of infinity gets 2", name);
    check(refused_with(2, function(-INFINITY)), "%s of minus infinity gets 2", name);
}

/* A range of arguments, their magnitudes spread evenly, and how close its values must be. */
struct comparison {
    const char *name;
    elementary *function;
    long double (*library)(long double);
    double least, greatest;
    bool both_signs;
    double close;
};

static double argument(const struct comparison *c, uint64_t *state)
{
    uint64_t width = bits_of(c->greatest) - bits_of(c->least);
    double x = number_of(bits_of(c->least) + splitmix(state) % (width + 1));
    return c->both_signs && splitmix(state) % 2 ? -x : x;
}

static double relative_error(const struct comparison *c, double x)
{
    struct outcome outcome = c->function(x);
    long double right = c->library(x);
    /* A NaN would be no greatest error. */
    if (!is_answered(outcome))
        return INFINITY;
    if (right == 0)
        return outcome.value == 0 ? 0 : INFINITY;
    return (double)fabsl((outcome.value - right) / right);
}

static void check_closeness(const struct comparison *c)
{
    uint64_t state = 1;
    double least = INFINITY, greatest = 0, sum = 0;
    for (int i = 0; i < POINTS; i++) {
        double error = relative_error(c, argument(c, &state));
        least = fmin(least, error);
        greatest = fmax(greatest, error);
        sum += error;
    }
    check(greatest < c->close,
          "%s is the library's on %d points, relative error %.2g to %.2g, mean %.2g", c->name,
          POINTS, least, greatest, sum / POINTS);
}

static void check_library(void)
{
    /* exp squares ten times, which multiplies the error of H by 1024. */
    static const struct comparison comparisons[] = {
        { "exp up to 1", exp_answer, expl, 0x1p-60, 1, true, 1e-12 },
        { "exp up to 700", exp_answer, expl, 1, 700, true, 1e-12 },
        { "ln about 1", ln_answer, logl, 0.75, 1.5, false, 1e-15 },
        { "ln", ln_answer, logl, 0x1p-60, 0x1p60, false, 1e-15 },
        { "root", root_answer, sqrtl, 1, 1e8, false, 1e-15 },
    };
    for (size_t i = 0; i < sizeof comparisons / sizeof *comparisons; i++)
        check_closeness(&comparisons[i]);
}

static void check_powers(void)
{
    check(same_bits(power_value(0, 0.48), 0), "0 to the 0.48 is 0");
    check(same_bits(power_value(1, 3.9), 1), "1 to the 3.9 is 1");
    check(fabs(power_value(2, 1.5) / sqrt(8) - 1) < 1e-12, "2 to the 1.5 is the root of 8");
    check(isnan(power_value(-1, 2)), "a power of a negative number is none");
    check(same_bits(integer_power(1.1, 0), 1), "1.1 to the 0 is the empty product 1");
    check(same_bits(integer_power(1.1, 3), 1.1 * 1.1 * 1.1), "1.1 to the 3 is the product");
    check(same_bits(integer_power(0, 7), 0), "0 to the 7 is 0");
}

static void check_not_finite(void)
{
    check(isnan(quotient(1, INFINITY)), "a quotient keeps an infinite divisor");
    check(isnan(quotient(0, NAN)), "a quotient keeps a NaN divisor");
    check(same_bits(quotient(1, 4), 0.25), "a quotient of finite numbers is theirs");
    check(refused_with(12, settled(quotient(1, 0))), "1/0 gets 12");
    check(refused_with(12, settled(1e308 * 10 - 1e308)), "an overflow on the way gets 12");
    check(isnan(exp_value(INFINITY)) && isnan(ln_value(INFINITY)) && isnan(root_value(INFINITY)),
          "exp, ln and root keep an infinite argument");
}

void check_arithmetic(void)
{
    check_cases();
    check_range("exp", exp_answer, -700, 700);
    check_range("ln", ln_answer, 0x1p-60, 0x1p60);
    check_range("root", root_answer, 1, 1e8);
    check_library();
    check_powers();
    check_not_finite();
}
