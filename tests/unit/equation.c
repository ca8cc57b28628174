/* The properties and estimates of each fluid against 01 and what 003 and 001 say besides their tables. */
#include "../independent/equation.h"
#include "check.h"

static struct outcome of(const struct fluid *f, enum property property, double T, double rho)
{
    return property_at(f, property, T, rho);
}

static double number(const struct fluid *f, enum property property, double T, double rho)
{
    return of(f, property, T, rho).value;
}

static const char *const property_names[PROPERTIES] = {
    [PRESSURE] = "pressure",
    [ENERGY] = "energy",
    [ENTHALPY] = "enthalpy",
    [ISOCHORIC_HEAT_CAPACITY] = "isochoric heat capacity",
    [ENTROPY] = "entropy",
    [GIBBS] = "Gibbs energy",
    [HELMHOLTZ] = "Helmholtz energy",
    [ISOBARIC_HEAT_CAPACITY] = "isobaric heat capacity",
    [SOUND_SPEED] = "sound speed",
};

/* 0 is a fluid's least density. */
static void check_ranges(const struct fluid *f, enum property property)
{
    const char *name = property_names[property];
    double below = nextafter(f->T.least, 0), above = nextafter(f->T.greatest, INFINITY);
    double denser = nextafter(f->rho.greatest, INFINITY);
    check(is_answered(of(f, property, f->T.least, 1e-3)), "%s: %s passes at the least T", f->name, name);
    check(is_answered(of(f, property, f->T.greatest, 1)), "%s: %s passes at the greatest T", f->name, name);
    check(is_answered(of(f, property, 250, f->rho.greatest)), "%s: %s passes at the greatest density",
          f->name, name);
    check(refused_with(3, of(f, property, below, 1)), "%s: %s gets 3 just below", f->name, name);
    check(refused_with(3, of(f, property, above, 1)), "%s: %s gets 3 just above", f->name, name);
    check(refused_with(4, of(f, property, 250, denser)), "%s: %s gets 4 just above", f->name, name);
    check(refused_with(4, of(f, property, 250, f->rho.greatest + 1e-6)), "%s: %s gets 4 at 10^-6 more",
          f->name, name);
    check(refused_with(4, of(f, property, 250, -5e-324)), "%s: %s gets 4 below density 0", f->name, name);
}

static void check_order(const struct fluid *f, enum property property)
{
    const char *name = property_names[property];
    double hot = f->T.greatest + 50, dense = f->rho.greatest + 1;
    check(refused_with(2, of(f, property, NAN, dense)), "%s: %s: 2 of T comes before 4", f->name, name);
    check(refused_with(2, of(f, property, hot, INFINITY)), "%s: %s: 2 of density comes before 3", f->name,
          name);
    check(refused_with(3, of(f, property, hot, dense)), "%s: %s: 3 comes before 4", f->name, name);
    check(refused_with(3, of(f, property, hot, 0)), "%s: %s: 3 comes before 10", f->name, name);
}

static bool needs_density_above_zero(enum property property)
{
    return property == ENTROPY || property == GIBBS || property == HELMHOLTZ;
}

static void check_density_zero(const struct fluid *f, enum property property)
{
    const char *name = property_names[property];
    struct outcome plus = of(f, property, 250, 0.0), minus = of(f, property, 250, -0.0);
    if (needs_density_above_zero(property)) {
        check(refused_with(10, plus), "%s: %s gets 10 at density 0", f->name, name);
        check(refused_with(10, minus), "%s: %s gets 10 at density -0", f->name, name);
    } else {
        check(is_answered(plus) && answered_with(plus.value, minus),
              "%s: %s at density -0 is that at +0", f->name, name);
    }
}

/* ρc·2⁻⁶⁰ has δ = 2⁻⁶⁰; the first density below it whose δ is under is found by steps. */
static void check_tiny_density(const struct fluid *f, enum property property)
{
    double rho = f->rhoc * 0x1p-60;
    double under = rho;
    while (under / f->rhoc >= 0x1p-60)
        under = nextafter(under, 0);
    check(is_answered(of(f, property, 300, rho)), "%s: %s answers where delta is 2^-60", f->name,
          property_names[property]);
    check(of(f, property, 300, under).code == (needs_density_above_zero(property) ? 12 : 0),
          "%s: %s just under that density", f->name, property_names[property]);
}

/* 01: "A computed pressure may be negative or above the range: it is answered." */
static void check_pressures_outside(const struct fluid *f, double T, double rho)
{
    check(number(f, PRESSURE, T, rho) < 0, "%s: p is negative at %g K, %g", f->name, T, rho);
    check(number(f, PRESSURE, f->T.greatest, f->rho.greatest) > f->P.greatest,
          "%s: p is above its range at the greatest T and density", f->name);
}

/* Laws that tie the properties to each other, whatever their formulas. */
static void check_laws(const struct fluid *f, double T, double rho)
{
    double p = number(f, PRESSURE, T, rho), h = number(f, ENTHALPY, T, rho);
    double u = number(f, ENERGY, T, rho), s = number(f, ENTROPY, T, rho);
    double g = number(f, GIBBS, T, rho), a = number(f, HELMHOLTZ, T, rho);
    check(close_to(h, u + p / (1000 * rho), 1e-11), "%s: enthalpy is u + p/rho at %g K, %g", f->name, T, rho);
    check(close_to(g, h - T * s, 1e-10), "%s: Gibbs energy is h - Ts at %g K, %g", f->name, T, rho);
    check(close_to(a, u - T * s, 1e-10), "%s: Helmholtz energy is u - Ts at %g K, %g", f->name, T, rho);
    double dT = 1e-3, drho = 1e-4 * rho;
    double du_dT = (number(f, ENERGY, T + dT, rho) - number(f, ENERGY, T - dT, rho)) / (2 * dT);
    double da_dT = (number(f, HELMHOLTZ, T + dT, rho) - number(f, HELMHOLTZ, T - dT, rho)) / (2 * dT);
    double da_drho =
        (number(f, HELMHOLTZ, T, rho + drho) - number(f, HELMHOLTZ, T, rho - drho)) / (2 * drho);
    check(close_to(number(f, ISOCHORIC_HEAT_CAPACITY, T, rho), du_dT, 1e-5), "%s: cv is du/dT at %g K, %g",
          f->name, T, rho);
    check(close_to(s, -da_dT, 1e-5), "%s: entropy is -da/dT at %g K, %g", f->name, T, rho);
    check(close_to(p, rho * rho * 1000 * da_drho, 1e-4), "%s: p is rho^2 da/drho at %g K, %g", f->name, T,
          rho);
}

static struct outcome estimated(const struct fluid *f, enum estimate estimate, double T)
{
    return estimate_at(f, estimate, T);
}

/* 003 and 001: 200 kJ/kg and 1 kJ/(kg K) for the saturated liquid at 0 °C. */
static void check_reference_state(const struct fluid *f)
{
    double T = 273.15, rho = estimated(f, LIQUID_DENSITY, T).value;
    double h = number(f, ENTHALPY, T, rho) / f->M, s = number(f, ENTROPY, T, rho) / f->M;
    check(close_to(h, 200000, 1e-3), "%s: saturated liquid at 0 C: enthalpy %.1f J/kg", f->name, h);
    check(close_to(s, 1000, 1e-3), "%s: saturated liquid at 0 C: entropy %.3f J/(kg K)", f->name, s);
}

static void check_estimate_refusals(const struct fluid *f, enum estimate estimate)
{
    double below = nextafter(f->T.least, 0), above = nextafter(f->T.greatest, INFINITY);
    double past_critical = nextafter(f->Tc, INFINITY);
    check(refused_with(2, estimated(f, estimate, NAN)), "%s: estimate %d of NaN gets 2", f->name, estimate);
    check(refused_with(2, estimated(f, estimate, -INFINITY)), "%s: estimate %d of -inf gets 2", f->name,
          estimate);
    check(refused_with(3, estimated(f, estimate, below)), "%s: estimate %d: 3 just below", f->name, estimate);
    check(refused_with(3, estimated(f, estimate, above)), "%s: estimate %d: 3 just above", f->name, estimate);
    check(refused_with(13, estimated(f, estimate, past_critical)), "%s: estimate %d: 13 just above Tc",
          f->name, estimate);
    check(refused_with(13, estimated(f, estimate, f->T.greatest)), "%s: estimate %d: 13 at the greatest T",
          f->name, estimate);
    check(is_answered(estimated(f, estimate, f->T.least)), "%s: estimate %d answers at the least T", f->name,
          estimate);
}

static void check_estimates(const struct fluid *f)
{
    for (int estimate = 0; estimate < ESTIMATES; estimate++)
        check_estimate_refusals(f, estimate);
    check(answered_with(f->pc, estimated(f, SATURATION_PRESSURE, f->Tc)), "%s: pc is met at Tc", f->name);
    check(answered_with(f->rhoc, estimated(f, LIQUID_DENSITY, f->Tc)), "%s: the liquid's rhoc at Tc",
          f->name);
    check(answered_with(f->rhoc, estimated(f, VAPOUR_DENSITY, f->Tc)), "%s: the vapour's rhoc at Tc",
          f->name);
}

/* 003, section 2, at the triple point. */
static void check_estimates_of_003(void)
{
    const struct fluid *f = &r245ca;
    double T = f->T.least;
    check(prints_as("0.12", estimated(f, SATURATION_PRESSURE, T).value / 1e3), "0.12 kPa at the triple point");
    check(prints_as("12.13", estimated(f, LIQUID_DENSITY, T).value), "liquid 12.13 at the triple point");
    check(prints_as("0.000073", estimated(f, VAPOUR_DENSITY, T).value), "vapour 0.000073 there");
}

/* 001, Table 1, at the normal boiling point, as closely as its section 4 says that equations 4 to 6 are. */
static void check_estimates_of_001(void)
{
    const struct fluid *f = &r245fa;
    double T = 288.198, p = estimated(f, SATURATION_PRESSURE, T).value;
    double liquid = estimated(f, LIQUID_DENSITY, T).value, vapour = estimated(f, VAPOUR_DENSITY, T).value;
    check(close_to(p, 101325, 2e-4), "101325 Pa at the normal boiling point: %.1f", p);
    check(close_to(liquid, 10.18, 8e-4), "liquid 10.18 at the normal boiling point: %.4f", liquid);
    check(close_to(vapour, 0.04415, 1e-3), "vapour 0.04415 at the normal boiling point: %.6f", vapour);
}

/* 001, Table 1: the ideal gas at its reference state. */
static void check_ideal_gas_of_001(void)
{
    const struct fluid *f = &r245fa;
    double T = 273.15, rho = 1e3 / (f->R * T) / 1000;
    double h = number(f, ENTHALPY, T, 0), s = number(f, ENTROPY, T, rho);
    check(close_to(h, 54490.07, 1e-7), "ideal gas at 0 C: enthalpy %.3f J/mol", h);
    /* At 0.001 MPa the gas is nearly ideal. */
    check(close_to(s, 268.2193, 1e-4), "gas at 0 C and 0.001 MPa: entropy %.4f J/(mol K)", s);
}

static void check_fluid(const struct fluid *f)
{
    check(f->top + 1 < LIST_ROOM, "%s: the lists of its top have room", f->name);
    check(same_bits(f->rho.greatest * 128, (double)f->top), "%s: its top is its greatest density in cells",
          f->name);
    for (int property = 0; property < PROPERTIES; property++) {
        check_ranges(f, property);
        check_order(f, property);
        check_density_zero(f, property);
        check_tiny_density(f, property);
    }
    check_reference_state(f);
    check_estimates(f);
}

void check_equation(void)
{
    check(answered_with(0, of(&r245ca, PRESSURE, 250, 0)), "case d: pressure at 250 K, 0 is 0");
    check(refused_with(10, of(&r245ca, ENTROPY, 250, 0)), "case e: entropy there gets 10");
    for (uint64_t i = 0; i < FLUIDS; i++)
        check_fluid(fluid_numbered(i));
    check_pressures_outside(&r245ca, 320, 9.5);
    check_pressures_outside(&r245fa, 300, 9.5);
    check_laws(&r245ca, 250, 11.3);
    check_laws(&r245ca, 420, 1);
    check_laws(&r245ca, 445, 7);
    check_laws(&r245ca, 300, 0.01);
    check_laws(&r245fa, 250, 11);
    check_laws(&r245fa, 400, 0.5);
    check_laws(&r245fa, 435, 7);
    check_laws(&r245fa, 300, 0.01);
    check_estimates_of_003();
    check_estimates_of_001();
    check_ideal_gas_of_001();
}
