/* States at which the isobaric heat capacity or the sound speed is refused with 11 or 12. */
#include "../independent/equation.h"
#include "check.h"

enum { GRID_T = 300, GRID_RHO = 400 };

static double number(const struct fluid *f, enum property property, double T, double rho)
{
    return property_at(f, property, T, rho).value;
}

static bool both_refused_with(uint64_t code, const struct fluid *f, double T, double rho)
{
    return refused_with(code, property_at(f, ISOBARIC_HEAT_CAPACITY, T, rho))
           && refused_with(code, property_at(f, SOUND_SPEED, T, rho));
}

/* 11 for both properties; at each state it is said whether V or Q is the cause. */
static void check_unstable(const struct fluid *f, double T, double rho, bool V_above_zero,
                           bool Q_above_zero)
{
    double drho = 1e-5;
    double dp = number(f, PRESSURE, T, rho + drho) - number(f, PRESSURE, T, rho - drho);
    check(both_refused_with(11, f, T, rho), "%s: cp and w at %g K, %g get 11", f->name, T, rho);
    /* cv is R·V, and Q has the sign of dp/dρ. */
    check((number(f, ISOCHORIC_HEAT_CAPACITY, T, rho) > 0) == V_above_zero, "there V is %s 0",
          V_above_zero ? "above" : "not above");
    check((dp > 0) == Q_above_zero, "there Q is %s 0", Q_above_zero ? "above" : "not above");
}

/* Refusal 11 belongs to Q = 0: a state at which it is 0 itself, and the next density below. */
static void check_Q_at_zero(const struct fluid *f, double T, double rho)
{
    double next = nextafter(rho, 0);
    check(both_refused_with(11, f, T, rho), "%s: cp and w get 11 where Q is 0, at %g K, %a", f->name, T, rho);
    check(is_answered(property_at(f, ISOBARIC_HEAT_CAPACITY, T, next))
              && is_answered(property_at(f, SOUND_SPEED, T, next)),
          "both are answered at the next density below");
}

/* It belongs to V = 0 too. */
static void check_V_at_zero(const struct fluid *f, double T, double rho)
{
    check(both_refused_with(11, f, T, rho), "%s: cp and w get 11 where V is 0, at %g K, %a", f->name, T, rho);
    check(answered_with(0, property_at(f, ISOCHORIC_HEAT_CAPACITY, T, rho)), "cv is 0 there");
}

/* Near Q = K = 0 the root's argument is below 1 though neither V nor Q gives 11. */
static void check_not_rooted(const struct fluid *f, double T, double rho)
{
    check(is_answered(property_at(f, ISOBARIC_HEAT_CAPACITY, T, rho)), "%s: cp at %g K, %g is answered",
          f->name, T, rho);
    check(refused_with(12, property_at(f, SOUND_SPEED, T, rho)), "%s: w at %g K, %g gets 12", f->name, T, rho);
}

/* Walking towards V = 0 the root's argument passes 10⁸ before 11 begins. */
static void check_towards_V_at_zero(void)
{
    double rho = 4.573;
    unsigned met[CODES] = { 0 };
    for (int i = 0; i < 5000; i++)
        met[property_at(&r245ca, SOUND_SPEED, 377.23 + i * 1e-5, rho).code]++;
    check(met[0] > 0 && met[11] > 0 && met[12] > 0,
          "%s: w at density 4.573 answers, gets 11 and gets 12: %u, %u and %u states", r245ca.name, met[0],
          met[11], met[12]);
}

/* How many states of a grid over the whole range have V not above 0, and how many have 11. */
struct met {
    unsigned V_not_above_zero, unstable;
};

static double in_grid(struct range range, int i, int count)
{
    return range.least + (range.greatest - range.least) * i / count;
}

static struct met met_on_grid(const struct fluid *f)
{
    struct met met = { 0 };
    for (int i = 0; i <= GRID_T; i++)
        for (int j = 0; j <= GRID_RHO; j++) {
            double T = in_grid(f->T, i, GRID_T), rho = in_grid(f->rho, j, GRID_RHO);
            met.V_not_above_zero += number(f, ISOCHORIC_HEAT_CAPACITY, T, rho) <= 0;
            met.unstable += property_at(f, ISOBARIC_HEAT_CAPACITY, T, rho).code == REFUSED_UNSTABLE;
        }
    return met;
}

/* docs/CHECKED.md has these numbers. Of R-245fa no state with V ≤ 0 was met: what this grid meets is all that is said. */
static void check_grid(const struct fluid *f, unsigned unstable, unsigned V_not_above_zero)
{
    struct met met = met_on_grid(f);
    check(met.unstable == unstable && met.V_not_above_zero == V_not_above_zero,
          "%s: of %d states %u have 11, and V is not above 0 in %u", f->name, (GRID_T + 1) * (GRID_RHO + 1),
          met.unstable, met.V_not_above_zero);
}

void check_stability(void)
{
    check_unstable(&r245ca, 400, 3, false, false);
    check_unstable(&r245ca, 390, 3.5, false, true);
    check_unstable(&r245ca, 300, 8, true, false);
    check_unstable(&r245fa, 400, 3, true, false);
    check_unstable(&r245fa, 300, 8, true, false);
    check_Q_at_zero(&r245ca, 352, 0x1.ce015ed20c458p-1);
    check_Q_at_zero(&r245fa, 400, 0x1.d3e67617f47dep+0);
    check_V_at_zero(&r245ca, 377.12, 0x1.d60260dd31d5dp+1);
    check_towards_V_at_zero();
    check_not_rooted(&r245ca, 318.061, 4.79);
    check_not_rooted(&r245ca, 355.0645, 3.50795);
    check_not_rooted(&r245fa, 313.044, 4.59373);
    check_grid(&r245ca, 53404, 3076);
    check_grid(&r245fa, 42311, 0);
}
