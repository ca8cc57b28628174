/* M-105's pairs: what is refused and in which order, the four bounds, stability, and saturated states that are printed. */
#include "../independent/bits.h"
#include "../independent/equation.h"
#include "../independent/pair.h"
#include "check.h"

#include <inttypes.h>

/* The fluids by their numbers. */
enum { R245CA, R245FA };

/* Room for a pair and more. */
enum { ROOM = 40 };

static struct proposal proposed(uint64_t number, double T)
{
    return propose(number, T, PAIR_BYTES);
}

static bool no_pair_with(uint64_t code, struct proposal proposal)
{
    return proposal.code == code && isnan(proposal.pair.liquid) && isnan(proposal.pair.vapour);
}

static uint64_t judged(uint64_t number, double T, double liquid, double vapour)
{
    return judge(number, T, (struct pair){ .liquid = liquid, .vapour = vapour });
}

/* How far the liquid's numbers are above the vapour's, and both Q. */
struct apart {
    double p, g, Ql, Qv;
};

static struct apart apart_in(uint64_t number, double T, struct pair pair)
{
    struct isotherm isotherm = isotherm_at(fluid_numbered(number), T);
    struct phase liquid = isotherm_phase(&isotherm, pair.liquid);
    struct phase vapour = isotherm_phase(&isotherm, pair.vapour);
    return (struct apart){ .p = liquid.p - vapour.p, .g = liquid.g - vapour.g, .Ql = liquid.Q, .Qv = vapour.Q };
}

static bool within(double x, double bound)
{
    return -bound <= x && x <= bound;
}

static bool is_balanced(const struct apart *apart)
{
    return within(apart->p, 0.01) && within(apart->g, 1e-9);
}

/* ---- what a pair is refused for */

static void check_judged(uint64_t code, uint64_t number, double T, double liquid, double vapour, const char *what)
{
    uint64_t got = judged(number, T, liquid, vapour);
    check(got == code, "fluid %" PRIu64 ": %" PRIu64 " for %s", number, got, what);
}

static void check_inputs(uint64_t n)
{
    const struct fluid *f = fluid_numbered(n);
    struct pair pair = proposed(n, 300).pair;
    double l = pair.liquid, v = pair.vapour, hot = f->T.greatest + 50, dense = nextafter(f->rho.greatest, INFINITY);
    check_judged(0, n, 300, l, v, "the proposed pair");
    check_judged(2, n, NAN, dense, v, "T that is NaN, before 4");
    check_judged(2, n, hot, -INFINITY, v, "a liquid that is infinite, before 3");
    check_judged(2, n, hot, l, NAN, "a vapour that is NaN, before 3");
    check_judged(2, n, 300, dense, INFINITY, "a vapour that is infinite, before 4");
    check_judged(3, n, nextafter(f->T.least, 0), l, v, "T just below its range");
    check_judged(3, n, nextafter(f->T.greatest, INFINITY), l, v, "T just above its range");
    check_judged(3, n, hot, dense, v, "T outside, before 4");
    check_judged(4, n, 300, dense, v, "a liquid just above its range");
    check_judged(4, n, 300, l, dense, "a vapour just above its range");
    check_judged(4, n, 300, l, -5e-324, "a vapour just below 0");
    check_judged(4, n, 300, -1, v, "a liquid below 0");
    check_judged(4, n, f->T.greatest, dense, v, "a liquid outside at T above Tc, before 19");
    check_judged(4, n, 300, f->rhoc / 2, -1, "a vapour outside with a liquid below the critical density, before 19");
}

/* 19 before the work: T and the densities about the critical point. */
static void check_critical(uint64_t n)
{
    const struct fluid *f = fluid_numbered(n);
    struct pair pair = proposed(n, 300).pair;
    double l = pair.liquid, v = pair.vapour, tiny = 5e-324;
    check_judged(19, n, f->Tc, l, v, "T at Tc");
    check_judged(19, n, f->T.greatest, l, v, "T at its greatest");
    check_judged(19, n, 300, l, 0.0, "a vapour of 0");
    check_judged(19, n, 300, l, -0.0, "a vapour of minus 0");
    check_judged(19, n, 300, l, f->rhoc, "a vapour at the critical density");
    check_judged(19, n, 300, f->rhoc, v, "a liquid at the critical density");
    check_judged(19, n, 300, v, l, "liquid and vapour in each other's place");
    check_judged(19, n, 300, l, l, "two liquids");
    check_judged(19, n, 300, v, v, "two vapours");
    check_judged(19, n, 300, f->rho.greatest, v, "a liquid at the greatest density");
    check_judged(19, n, f->Tc, l, tiny, "T at Tc, before 12");
    check_judged(19, n, 300, f->rhoc, tiny, "a liquid at the critical density, before 12");
    check_judged(12, n, 300, l, tiny, "a vapour with a delta under 2^-60");
    check_judged(12, n, 300, f->rho.greatest, tiny, "such a vapour, before the 19 of pressures that differ");
}

/* So close to Tc that pressures, values and both Q pass with all of these: what is refused is for the one thing named. */
static void check_close_to_critical(uint64_t n)
{
    const struct fluid *f = fluid_numbered(n);
    double T = f->Tc - 1e-6, l = f->rhoc * (1 + 1e-5), v = f->rhoc * (1 - 1e-5);
    check_judged(0, n, T, l, v, "a pair around the critical density");
    check_judged(0, n, T, nextafter(f->rhoc, INFINITY), nextafter(f->rhoc, 0), "the two neighbours of the critical density");
    check_judged(0, n, nextafter(f->Tc, 0), l, v, "T just below Tc");
    check_judged(19, n, f->Tc, l, v, "T at Tc alone");
    check_judged(19, n, nextafter(f->Tc, INFINITY), l, v, "T just above Tc alone");
    check_judged(19, n, T, l, f->rhoc, "a vapour at the critical density alone");
    check_judged(19, n, T, f->rhoc, v, "a liquid at the critical density alone");
}

static void check_numbers(void)
{
    check_judged(17, 2, NAN, NAN, NAN, "a fluid that there is not, before 2");
    check_judged(17, UINT64_C(1) << 32, 300, 10, 0.1, "a number that is 0 in 32 bits");
}

/*
 * ---- the four bounds
 *
 * No pair can be built at a bound itself. Of a pair whose values agree the pressures are above 8 Pa and so multiples of 2^-49,
 * and the values are sums of multiples of 2^-70: so are their differences, and neither 0.01 nor 1e-9 is such a multiple.
 */

/* Neighbouring densities of one phase, the other's being kept: with the first the pair is accepted, with the second it is not. */
struct edge {
    struct pair accepted, refused;
};

static struct pair with_density(struct pair pair, bool of_liquid, uint64_t bits)
{
    if (of_liquid)
        pair.liquid = number_of(bits);
    else
        pair.vapour = number_of(bits);
    return pair;
}

/* By halving between a phase's density in an accepted pair and that density times the part, with which it is not accepted. */
static struct edge edge_towards(uint64_t number, double T, struct pair pair, bool of_liquid, double part)
{
    double density = of_liquid ? pair.liquid : pair.vapour;
    uint64_t in = bits_of(density), out = bits_of(density * part);
    for (int halving = 0; halving < 64 && in + 1 != out && out + 1 != in; halving++) {
        uint64_t middle = in / 2 + out / 2 + (in & out & 1);
        if (judge(number, T, with_density(pair, of_liquid, middle)) == ANSWERED)
            in = middle;
        else
            out = middle;
    }
    return (struct edge){ with_density(pair, of_liquid, in), with_density(pair, of_liquid, out) };
}

/* A denser liquid's pressure is higher: one step too far is more than 0.01 Pa, while the values are close enough yet. */
static void check_pressure_bound(uint64_t number, double T, double part)
{
    struct edge edge = edge_towards(number, T, proposed(number, T).pair, true, part);
    struct apart in = apart_in(number, T, edge.accepted), out = apart_in(number, T, edge.refused);
    check(judge(number, T, edge.accepted) == 0 && within(in.p, 0.01), "fluid %" PRIu64 ", %g K: accepted at %.9g Pa", number, T,
          in.p);
    check(judge(number, T, edge.refused) == 19 && !within(out.p, 0.01) && within(out.p, 0.0101) && within(out.g, 1e-9),
          "fluid %" PRIu64 ", %g K: 19 at %.9g Pa", number, T, out.p);
}

/* A denser vapour's value is higher, and the liquid's less it is lower. */
static void check_value_bound(uint64_t number, double T, double part)
{
    struct edge edge = edge_towards(number, T, proposed(number, T).pair, false, part);
    struct apart in = apart_in(number, T, edge.accepted), out = apart_in(number, T, edge.refused);
    check(judge(number, T, edge.accepted) == 0 && within(in.g, 1e-9), "fluid %" PRIu64 ", %g K: accepted at %.9g", number, T,
          in.g);
    check(judge(number, T, edge.refused) == 19 && !within(out.g, 1e-9) && within(out.g, 1.01e-9) && within(out.p, 0.01),
          "fluid %" PRIu64 ", %g K: 19 at %.9g", number, T, out.g);
}

static void check_bounds(uint64_t number, double T)
{
    check_pressure_bound(number, T, 1 + 1e-6);
    check_pressure_bound(number, T, 1 - 1e-6);
    check_value_bound(number, T, 1 + 1e-6);
    check_value_bound(number, T, 1 - 1e-6);
}

/* ---- Q at both */

/* States close to Tc at which all but one Q is as it should be. */
static void check_unstable(uint64_t number, double T, double liquid, double vapour)
{
    struct apart apart = apart_in(number, T, (struct pair){ liquid, vapour });
    check(judged(number, T, liquid, vapour) == 19 && is_balanced(&apart) && (apart.Ql > 0) != (apart.Qv > 0),
          "fluid %" PRIu64 ", %a K: 19 with Q %g of the liquid and %g of the vapour", number, T, apart.Ql, apart.Qv);
}

/* Q > 0 is asked for, and 0 is not above itself. */
static void check_Q_at_zero(uint64_t number, double T, double liquid, double vapour)
{
    struct apart apart = apart_in(number, T, (struct pair){ liquid, vapour });
    check_unstable(number, T, liquid, vapour);
    check(apart.Ql == 0 || apart.Qv == 0, "there Q of one is 0");
}

static void check_stability_of_both(void)
{
    check_unstable(R245CA, 0x1.bf91df055f314p+8, 0x1.f5d275657bb44p+1, 0x1.f45c4d96ce533p+1);
    check_unstable(R245CA, 0x1.bf91ea5469e23p+8, 0x1.f6a03dda1fe99p+1, 0x1.f5b6b4d94fcp+1);
    check_unstable(R245FA, 0x1.ab028d41d403bp+8, 0x1.f1fc4f9b78f05p+1, 0x1.e8c2e0ca5982bp+1);
    check_unstable(R245FA, 0x1.ab028e18c7acep+8, 0x1.f57eca28779e3p+1, 0x1.ee39eb4855e84p+1);
    check_Q_at_zero(R245CA, 0x1.bf91e89edeeafp+8, 0x1.f627ca1805d98p+1, 0x1.f52c5d888464ap+1);
    check_Q_at_zero(R245CA, 0x1.bf91eab18f41dp+8, 0x1.f608ce00a6332p+1, 0x1.f594ca1c18c89p+1);
    check_Q_at_zero(R245FA, 0x1.ab028e84215f9p+8, 0x1.f2de558f32275p+1, 0x1.ed3c99661932p+1);
    check_Q_at_zero(R245FA, 0x1.ab028e08646fbp+8, 0x1.f6f7458d481cap+1, 0x1.eca825750a0a4p+1);
}

/* ---- the proposer */

static void check_proposer_refusals(uint64_t n)
{
    const struct fluid *f = fluid_numbered(n);
    double past_critical = nextafter(f->Tc, INFINITY);
    check(no_pair_with(2, propose(n, NAN, 0)), "%s: 2 of T comes before 7", f->name);
    check(no_pair_with(2, propose(n, -INFINITY, ROOM)), "%s: 2 of an infinite T", f->name);
    check(no_pair_with(3, propose(n, nextafter(f->T.least, 0), 0)), "%s: 3 just below comes before 7", f->name);
    check(no_pair_with(3, propose(n, nextafter(f->T.greatest, INFINITY), ROOM)), "%s: 3 just above", f->name);
    check(no_pair_with(7, propose(n, past_critical, PAIR_BYTES - 1)), "%s: 7 comes before 13", f->name);
    check(no_pair_with(7, propose(n, 300, 0)), "%s: 7 for no output", f->name);
    check(no_pair_with(13, propose(n, past_critical, PAIR_BYTES)), "%s: 13 just above Tc", f->name);
    check(no_pair_with(13, propose(n, f->T.greatest, ROOM)), "%s: 13 at the greatest T", f->name);
    check(no_pair_with(20, propose(n, f->Tc, PAIR_BYTES)), "%s: 20 at Tc, where both estimates are the critical density",
          f->name);
    check(proposed(n, f->T.least).code == ANSWERED, "%s: a pair at the least T", f->name);
}

/* The starting pair is handed on where it is accepted. */
static void check_starting_pair(uint64_t n, double below_critical)
{
    const struct fluid *f = fluid_numbered(n);
    double T = f->Tc - below_critical;
    struct proposal proposal = proposed(n, T);
    check(proposal.code == ANSWERED && proposal.rounds == 0
              && answered_with(proposal.pair.liquid, estimate_at(f, LIQUID_DENSITY, T))
              && answered_with(proposal.pair.vapour, estimate_at(f, VAPOUR_DENSITY, T)),
          "%s: %g K below Tc both estimates are handed on", f->name, below_critical);
}

/* Close to R-245fa's Tc the rounds lead here and there. No temperature was found that takes more than the last of these. */
static void check_many_rounds(void)
{
    static const struct {
        double T;
        int rounds;
    } found[] = {
        { 0x1.ab028f3dccc66p+8, 18 },
        { 0x1.ab028effb871ap+8, 19 },
        { 0x1.ab028ecea9ad1p+8, 20 },
        { 0x1.ab028efe40814p+8, 21 },
        { 0x1.ab028ec6597c2p+8, 23 },
    };
    for (size_t i = 0; i < sizeof found / sizeof *found; i++) {
        struct proposal proposal = proposed(R245FA, found[i].T);
        check(proposal.code == ANSWERED && proposal.rounds == found[i].rounds, "%s: a pair after %d rounds at %a K",
              r245fa.name, found[i].rounds, found[i].T);
    }
}

/* One pair is handed on, and it is accepted; the one before it is not known here. */
static void check_every_kelvin(uint64_t n, int least_rounds, int most_rounds)
{
    const struct fluid *f = fluid_numbered(n);
    unsigned kelvins = 0, accepted = 0;
    for (double T = ceil(f->T.least); T < f->Tc; T++) {
        struct proposal proposal = proposed(n, T);
        kelvins++;
        accepted += proposal.code == ANSWERED && judge(n, T, proposal.pair) == ANSWERED
                    && least_rounds <= proposal.rounds && proposal.rounds <= most_rounds;
    }
    check(accepted == kelvins, "%s: at %u of %u whole kelvins a pair after %d to %d rounds", f->name, accepted, kelvins,
          least_rounds, most_rounds);
}

/* A saturated state as a paper prints it, in mol/dm³ and MPa. */
static void check_printed(uint64_t n, double T, const char *liquid, const char *vapour, const char *pressure)
{
    struct pair pair = proposed(n, T).pair;
    struct isotherm isotherm = isotherm_at(fluid_numbered(n), T);
    const char *name = fluid_numbered(n)->name;
    check(prints_as(liquid, pair.liquid), "%s: saturated liquid %s at %g K", name, liquid, T);
    check(prints_as(vapour, pair.vapour), "%s: saturated vapour %s at %g K", name, vapour, T);
    check(prints_as(pressure, isotherm_phase(&isotherm, pair.liquid).p / 1e6)
              && prints_as(pressure, isotherm_phase(&isotherm, pair.vapour).p / 1e6),
          "%s: both at %s MPa", name, pressure);
}

/* 001, Table 7 and, for the triple point, Table 1; 003, section 2. The vapour's estimate is 15 % off at 001's triple point. */
static void check_printed_states(void)
{
    check_printed(R245FA, 250, "10.90057", "0.008011195", "0.01646009");
    check_printed(R245FA, 400, "7.151800", "1.068455", "2.210563");
    check_printed(R245FA, 170, "12.28", "0.000008391", "0.00001186");
    check_printed(R245CA, 196, "12.13", "0.000073", "0.00012");
}

/* 001, Table 1: 288.198 K is where the pressure is one atmosphere. */
static void check_boiling_point(void)
{
    const double around[] = { 288.1975, 288.1985 };
    double p[2];
    for (int i = 0; i < 2; i++) {
        struct isotherm isotherm = isotherm_at(&r245fa, around[i]);
        p[i] = isotherm_phase(&isotherm, proposed(R245FA, around[i]).pair.vapour).p;
    }
    struct pair pair = proposed(R245FA, 288.198).pair;
    check(p[0] < 101325 && 101325 < p[1], "%s: 101325 Pa between %g K and %g K", r245fa.name, around[0], around[1]);
    check(prints_as("10.18", pair.liquid) && prints_as("0.04415", pair.vapour),
          "%s: liquid 10.18 and vapour 0.04415 at the normal boiling point", r245fa.name);
}

void check_pairs(void)
{
    check_numbers();
    check(no_pair_with(17, propose(FLUIDS, NAN, 0)), "17 of a fluid that there is not comes before 2 and 7");
    for (uint64_t n = 0; n < FLUIDS; n++) {
        check_inputs(n);
        check_critical(n);
        check_close_to_critical(n);
        check_bounds(n, 250);
        check_bounds(n, 400);
        check_proposer_refusals(n);
    }
    check_stability_of_both();
    check_starting_pair(R245CA, 1e-5);
    check_starting_pair(R245FA, 1e-8);
    check_every_kelvin(R245CA, 2, 2);
    check_every_kelvin(R245FA, 1, 4);
    check_many_rounds();
    check_printed_states();
    check_boiling_point();
    check(no_pair_with(20, proposed(R245FA, 427.01 - 1e-6)), "%s: 20 at %a K, close to Tc", r245fa.name, 427.01 - 1e-6);
}
