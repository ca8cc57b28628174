/*
 * 01, "Arithmetic": exp, ln, root and powers.
 *
 * Refusal 12 is owed if any value of a formula is not finite. Sums,
 * differences and products of a value that is not finite are not finite
 * either, nor is a quotient with it as dividend; only as a divisor could it
 * vanish, and quotient() keeps it there. The functions below give NaN outside
 * their ranges. So the last value of a formula tells about all of them.
 */
#ifndef ARITHMETIC_H
#define ARITHMETIC_H

#include "refusals.h"

double quotient(double dividend, double divisor);

double exp_value(double x);
double ln_value(double x);
double root_value(double x);
double power_value(double x, double t);
double integer_power(double x, unsigned n);

struct outcome exp_answer(double x);
struct outcome ln_answer(double x);
struct outcome root_answer(double x);

#endif
