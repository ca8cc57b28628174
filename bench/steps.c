/* exp, ln and root, for the clock to call. */
#include "named.h"
#include "steps.h"

double NAMED(exp)(double x);
double NAMED(ln)(double x);
double NAMED(root)(double x);

double NAMED(exp)(double x) {
    return exp_of(x);
}

double NAMED(ln)(double x) {
    return ln_of(x);
}

double NAMED(root)(double x) {
    return root_of(x);
}
