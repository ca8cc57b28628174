/* 01, "The equation", formula by formula. */
#include "equation.h"

#include "arithmetic.h"

/* A row's part in the sums of one state. */
struct term {
    double A, q, r, f, g;
};

struct sums {
    double S0, S1, S2, T1, T2, ST;
};

struct state {
    const struct fluid *fluid;
    double T, rho, tau, delta;
    struct sums sums;
};

/* 01: "Testing ranges by 'below or above': NaN slips through both." */
bool in_range(struct range range, double x)
{
    return range.least <= x && x <= range.greatest;
}

/* A = ((N·δᵈ)·τᵗ)·X */
static double A_of(const struct row *row, double delta, double power, double X)
{
    return ((row->N * integer_power(delta, row->d)) * power) * X;
}

static struct term plain_term(const struct row *row, double delta, double power)
{
    double q = row->d;
    double r = row->t;
    return (struct term){
        .A = A_of(row, delta, power, 1),
        .q = q,
        .r = r,
        .f = q * q - q,
        .g = r * r - row->t,
    };
}

static struct term damped_term(const struct row *row, double delta, double power)
{
    double l = row->l;
    double delta_l = integer_power(delta, row->l);
    double q = row->d - l * delta_l;
    double r = row->t;
    return (struct term){
        .A = A_of(row, delta, power, exp_value(-delta_l)),
        .q = q,
        .r = r,
        .f = (q * q - q) - (l * l) * delta_l,
        .g = r * r - row->t,
    };
}

static double bell(const struct row *row, double delta, double tau)
{
    double eta = row->eta, beta = row->beta, gamma = row->gamma, epsilon = row->epsilon;
    return exp_value(-eta * (delta - epsilon) * (delta - epsilon)
                     - beta * (tau - gamma) * (tau - gamma));
}

static struct term bell_term(const struct row *row, double delta, double tau, double power)
{
    double eta = row->eta, beta = row->beta;
    double q = row->d - 2 * eta * delta * (delta - row->epsilon);
    double r = row->t - 2 * beta * tau * (tau - row->gamma);
    return (struct term){
        .A = A_of(row, delta, power, bell(row, delta, tau)),
        .q = q,
        .r = r,
        .f = (q * q - row->d) - 2 * eta * delta * delta,
        .g = (r * r - row->t) - 2 * beta * tau * tau,
    };
}

static struct term term_of(const struct row *row, double delta, double tau, double power)
{
    switch (row->kind) {
    case PLAIN:
        return plain_term(row, delta, power);
    case DAMPED:
        return damped_term(row, delta, power);
    default:
        return bell_term(row, delta, tau, power);
    }
}

static struct sums sums_at(const struct isotherm *isotherm, double delta)
{
    struct sums sums = { 0 };
    for (size_t k = 0; k < ROWS; k++) {
        struct term term =
            term_of(&isotherm->fluid->row[k], delta, isotherm->tau, isotherm->power[k]);
        sums.S0 += term.A;
        sums.S1 += term.A * term.q;
        sums.S2 += term.A * term.f;
        sums.T1 += term.A * term.r;
        sums.T2 += term.A * term.g;
        sums.ST += term.A * term.q * term.r;
    }
    return sums;
}

struct isotherm isotherm_at(const struct fluid *fluid, double T)
{
    struct isotherm isotherm = { .fluid = fluid, .T = T, .tau = fluid->Tc / T };
    for (size_t k = 0; k < ROWS; k++)
        isotherm.power[k] = power_value(isotherm.tau, fluid->row[k].t);
    return isotherm;
}

static struct state state_at(const struct isotherm *isotherm, double rho)
{
    /* 01: "A density of minus zero is worked as +0." */
    double worked = rho == 0 ? 0 : rho;
    double delta = worked / isotherm->fluid->rhoc;
    return (struct state){
        .fluid = isotherm->fluid,
        .T = isotherm->T,
        .rho = worked,
        .tau = isotherm->tau,
        .delta = delta,
        .sums = sums_at(isotherm, delta),
    };
}

static double I0(const struct state *s)
{
    const struct fluid *fluid = s->fluid;
    double sum = 0;
    for (size_t k = 0; k < IDEAL_PAIRS; k++) {
        double b = fluid->pair[k].u / s->T;
        sum += fluid->pair[k].v * ln_value(1 - exp_value(-b));
    }
    return fluid->a1 + fluid->a2 * s->tau + ln_value(s->delta)
           + (fluid->c0 - 1) * ln_value(s->tau) + sum;
}

static double I1(const struct state *s)
{
    const struct fluid *fluid = s->fluid;
    double sum = 0;
    for (size_t k = 0; k < IDEAL_PAIRS; k++) {
        double b = fluid->pair[k].u / s->T;
        double w = exp_value(b);
        sum += quotient(fluid->pair[k].v * b, w - 1);
    }
    return fluid->a2 * s->tau + (fluid->c0 - 1) + sum;
}

static double I2(const struct state *s)
{
    const struct fluid *fluid = s->fluid;
    double sum = 0;
    for (size_t k = 0; k < IDEAL_PAIRS; k++) {
        double b = fluid->pair[k].u / s->T;
        double w = exp_value(b);
        sum += quotient(fluid->pair[k].v * b * b * w, (w - 1) * (w - 1));
    }
    return (fluid->c0 - 1) + sum;
}

static double V_of(const struct state *s)
{
    return I2(s) - s->sums.T2;
}

static double K_of(const struct state *s)
{
    return 1 + s->sums.S1 - s->sums.ST;
}

static double Q_of(const struct state *s)
{
    return 1 + 2 * s->sums.S1 + s->sums.S2;
}

/* Gibbs energy without its R·T. */
static double g_of(const struct state *s)
{
    return 1 + I0(s) + s->sums.S0 + s->sums.S1;
}

static struct outcome pressure(const struct state *s)
{
    return settled(((s->rho * 1000) * (s->fluid->R * s->T)) * (1 + s->sums.S1));
}

static struct outcome energy(const struct state *s)
{
    return settled((s->fluid->R * s->T) * (I1(s) + s->sums.T1));
}

static struct outcome enthalpy(const struct state *s)
{
    return settled((s->fluid->R * s->T) * (I1(s) + s->sums.T1 + s->sums.S1 + 1));
}

static struct outcome isochoric_heat_capacity(const struct state *s)
{
    return settled(s->fluid->R * V_of(s));
}

static struct outcome entropy(const struct state *s)
{
    return settled(s->fluid->R * (I1(s) + s->sums.T1 - I0(s) - s->sums.S0));
}

static struct outcome gibbs(const struct state *s)
{
    return settled((s->fluid->R * s->T) * g_of(s));
}

static struct outcome helmholtz(const struct state *s)
{
    return settled((s->fluid->R * s->T) * (I0(s) + s->sums.S0));
}

/* 01: "V, K and Q are worked before 11 is tested." */
static uint64_t instability(double V, double K, double Q)
{
    if (!isfinite(V) || !isfinite(K) || !isfinite(Q))
        return REFUSED_NOT_FINITE;
    return Q <= 0 || V <= 0 ? REFUSED_UNSTABLE : ANSWERED;
}

static struct outcome isobaric_heat_capacity(const struct state *s)
{
    double V = V_of(s), K = K_of(s), Q = Q_of(s);
    uint64_t code = instability(V, K, Q);
    if (code != ANSWERED)
        return refused(code);
    return settled(s->fluid->R * (V + K * K / Q));
}

static struct outcome sound_speed(const struct state *s)
{
    double V = V_of(s), K = K_of(s), Q = Q_of(s);
    uint64_t code = instability(V, K, Q);
    if (code != ANSWERED)
        return refused(code);
    return settled(root_value((s->fluid->R * s->T) / s->fluid->M * (Q + K * K / V)));
}

typedef struct outcome formula(const struct state *state);

static formula *const formula_of[PROPERTIES] = {
    [PRESSURE] = pressure,
    [ENERGY] = energy,
    [ENTHALPY] = enthalpy,
    [ISOCHORIC_HEAT_CAPACITY] = isochoric_heat_capacity,
    [ENTROPY] = entropy,
    [GIBBS] = gibbs,
    [HELMHOLTZ] = helmholtz,
    [ISOBARIC_HEAT_CAPACITY] = isobaric_heat_capacity,
    [SOUND_SPEED] = sound_speed,
};

/* Refusal 10: ln δ stands in these three. */
static bool needs_density(enum property property)
{
    return property == ENTROPY || property == GIBBS || property == HELMHOLTZ;
}

struct outcome property_at(const struct fluid *fluid, enum property property, double T, double rho)
{
    if (!isfinite(T) || !isfinite(rho))
        return refused(REFUSED_NOT_A_NUMBER);
    if (!in_range(fluid->T, T))
        return refused(REFUSED_TEMPERATURE);
    if (!in_range(fluid->rho, rho))
        return refused(REFUSED_DENSITY);
    if (rho == 0 && needs_density(property))
        return refused(REFUSED_DENSITY_ZERO);
    struct isotherm isotherm = isotherm_at(fluid, T);
    struct state state = state_at(&isotherm, rho);
    return formula_of[property](&state);
}

struct outcome isotherm_pressure(const struct isotherm *isotherm, double rho)
{
    struct state state = state_at(isotherm, rho);
    return pressure(&state);
}

struct phase isotherm_phase(const struct isotherm *isotherm, double rho)
{
    struct state state = state_at(isotherm, rho);
    return (struct phase){ .p = pressure(&state).value, .g = g_of(&state), .Q = Q_of(&state) };
}

static double estimate_term(const struct estimate_term *term, double theta)
{
    return term->N * (term->t == 1 ? theta : power_value(theta, term->t));
}

/* sum + the series' terms from the given one on, left to right. */
static double continued(double sum, const struct series *series, size_t from, double theta)
{
    for (size_t k = from; k < series->count; k++)
        sum += estimate_term(&series->term[k], theta);
    return sum;
}

static double whole(const struct series *series, double theta)
{
    return continued(estimate_term(&series->term[0], theta), series, 1, theta);
}

struct outcome estimate_at(const struct fluid *fluid, enum estimate estimate, double T)
{
    if (!isfinite(T))
        return refused(REFUSED_NOT_A_NUMBER);
    if (!in_range(fluid->T, T))
        return refused(REFUSED_TEMPERATURE);
    if (T > fluid->Tc)
        return refused(REFUSED_ABOVE_CRITICAL);
    double theta = 1 - T / fluid->Tc;
    switch (estimate) {
    case SATURATION_PRESSURE:
        return settled(fluid->pc
                       * exp_value((fluid->Tc / T) * whole(&fluid->saturation_pressure, theta)));
    case LIQUID_DENSITY:
        return settled(fluid->rhoc * continued(1, &fluid->liquid_density, 0, theta));
    default:
        return settled(fluid->rhoc * exp_value(whole(&fluid->vapour_density, theta)));
    }
}
