/* 01, "Arithmetic", step by step. */
#include "arithmetic.h"

#include <float.h>
#include <stdbool.h>

/* 01: "one rounding per operation". */
#if FLT_EVAL_METHOD != 0 || defined(__FAST_MATH__)
#error "operations must be rounded to binary64 one by one"
#endif

/* NaN is within nothing. */
static bool within(double x, double least, double greatest)
{
    return least <= x && x <= greatest;
}

double quotient(double dividend, double divisor)
{
    return isfinite(divisor) ? dividend / divisor : NAN;
}

double exp_value(double x)
{
    if (!within(x, -700, 700))
        return NAN;
    double y = x * 0x1p-10;
    double H = 1;
    for (int n = 16; n >= 1; n--)
        H = 1 + (y * H) / n;
    for (int squared = 0; squared < 10; squared++)
        H = H * H;
    return H;
}

/* x = m·2ᵉ with 0.75 ≤ m < 1.5; gives m. */
static double split(double x, int *e)
{
    double m = frexp(x, e);
    if (m >= 0.75)
        return m;
    *e -= 1;
    return 2 * m;
}

double ln_value(double x)
{
    if (!within(x, 0x1p-60, 0x1p60))
        return NAN;
    int e;
    double m = split(x, &e);
    double z = (m - 1) / (m + 1);
    double s = z * z;
    double H = 1.0 / 21;
    for (int n = 19; n >= 1; n -= 2)
        H = 1.0 / n + s * H;
    return (2 * z) * H + e * 0.6931471805599453;
}

double root_value(double x)
{
    if (!within(x, 1, 1e8))
        return NAN;
    double y = 256;
    for (int step = 0; step < 16; step++)
        y = (y + x / y) / 2;
    return y;
}

double power_value(double x, double t)
{
    if (x == 0)
        return 0;
    return exp_value(t * ln_value(x));
}

double integer_power(double x, unsigned n)
{
    double product = 1;
    for (unsigned factor = 0; factor < n; factor++)
        product = product * x;
    return product;
}

static struct outcome elementary(double (*function)(double), double x)
{
    if (!isfinite(x))
        return refused(REFUSED_NOT_A_NUMBER);
    return settled(function(x));
}

struct outcome exp_answer(double x)
{
    return elementary(exp_value, x);
}

struct outcome ln_answer(double x)
{
    return elementary(ln_value, x);
}

struct outcome root_answer(double x)
{
    return elementary(root_value, x);
}
