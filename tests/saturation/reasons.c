/* Each test of M-105 by itself. */
#include "reasons.h"

#include "../independent/bits.h"
#include "../independent/equation.h"

const char *const reason_names[REASONS] = {
    [NOT_BELOW_CRITICAL] = "T not below Tc",
    [NO_VAPOUR] = "no vapour",
    [VAPOUR_NOT_THIN] = "the vapour not below the critical density",
    [LIQUID_NOT_DENSE] = "the liquid not above the critical density",
    [LIQUID_UNSTABLE] = "Q of the liquid",
    [VAPOUR_UNSTABLE] = "Q of the vapour",
    [PRESSURE_BELOW] = "the liquid's pressure too low",
    [PRESSURE_ABOVE] = "the liquid's pressure too high",
    [VALUE_BELOW] = "the liquid's value too low",
    [VALUE_ABOVE] = "the liquid's value too high",
};

static void test_densities(const struct fluid *fluid, double T, double l, double v, bool failed[REASONS])
{
    failed[NOT_BELOW_CRITICAL] = T >= fluid->Tc;
    failed[NO_VAPOUR] = v == 0;
    failed[VAPOUR_NOT_THIN] = v >= fluid->rhoc;
    failed[LIQUID_NOT_DENSE] = l <= fluid->rhoc;
}

static void test_phases(const struct fluid *fluid, double T, double l, double v, bool failed[REASONS])
{
    struct isotherm isotherm = isotherm_at(fluid, T);
    struct phase liquid = isotherm_phase(&isotherm, l), vapour = isotherm_phase(&isotherm, v);
    double dp = liquid.p - vapour.p, dg = liquid.g - vapour.g;
    failed[LIQUID_UNSTABLE] = liquid.Q <= 0;
    failed[VAPOUR_UNSTABLE] = vapour.Q <= 0;
    failed[PRESSURE_BELOW] = dp < -0.01;
    failed[PRESSURE_ABOVE] = dp > 0.01;
    failed[VALUE_BELOW] = dg < -1e-9;
    failed[VALUE_ABOVE] = dg > 1e-9;
}

/* A vapour of 0 has no value: of it only the tests before the work are asked. */
int only_reason(const struct trial *trial)
{
    const struct fluid *fluid = fluid_numbered(trial->fluid);
    double T = number_of(trial->T), l = number_of(trial->liquid), v = number_of(trial->vapour);
    bool failed[REASONS] = { false };
    test_densities(fluid, T, l, v, failed);
    if (!failed[NO_VAPOUR])
        test_phases(fluid, T, l, v, failed);
    int only = SEVERAL_REASONS, count = 0;
    for (int reason = 0; reason < REASONS; reason++)
        if (failed[reason]) {
            only = reason;
            count++;
        }
    return count == 1 ? only : SEVERAL_REASONS;
}
