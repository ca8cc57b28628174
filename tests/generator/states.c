/* States: mostly permitted ones, spread evenly; the rest where a refusal begins or ends. */
#include "../independent/bits.h"
#include "../independent/equation.h"
#include "draw.h"
#include "families.h"

/* Densities of δ about 2⁻⁶⁰, where ln δ begins. */
static uint64_t tiny_density(struct generator *g, const struct fluid *fluid)
{
    double edge = fluid->rhoc * 0x1p-60;
    return below(g, 2) ? nearby(g, edge) : log_uniform(g, edge / 16, edge * 16);
}

uint64_t density(struct generator *g, const struct fluid *fluid)
{
    switch (below(g, 13)) {
    case 0:
        return nearby(g, any_fluid(g)->rho.greatest);
    case 1:
        return below(g, 2) ? special(g) : any_bits(g);
    case 2:
        return tiny_density(g, fluid);
    case 3:
        return either_sign(g, 0);
    case 4:
        return log_uniform(g, 0x1p-1074, fluid->rho.greatest);
    case 5:
        return uniform(g, -1, fluid->rho.greatest + 1);
    case 6:
        return between_fluids(g, greatest_density);
    default:
        return uniform(g, fluid->rho.least, fluid->rho.greatest);
    }
}

/* Both numbers permitted, everywhere alike. */
static struct question permitted_state(struct generator *g, const struct fluid *fluid)
{
    uint64_t T = uniform(g, fluid->T.least, fluid->T.greatest);
    return (struct question){
        .first = T,
        .second = uniform(g, fluid->rho.least, fluid->rho.greatest),
    };
}

/* Vapours, whose densities differ by powers of ten. */
static struct question gas_state(struct generator *g, const struct fluid *fluid)
{
    uint64_t T = uniform(g, fluid->T.least, fluid->T.greatest);
    return (struct question){ .first = T, .second = log_uniform(g, 1e-7, fluid->rhoc) };
}

/* A state of a fluid. */
struct edge {
    const struct fluid *fluid;
    double T, rho;
};

/* About these states refusal 11 or 12 begins or ends. */
static struct edge found_edge(struct generator *g, const struct fluid *fluid)
{
    static const struct edge edges[] = {
        { &r245ca, 390, 3.5 }, /* V ≤ 0 and Q > 0 */
        { &r245ca, 352, 0x1.ce015ed20c458p-1 }, /* Q = 0 */
        { &r245ca, 377.12, 0x1.d60260dd31d5dp+1 }, /* V = 0 and Q > 0 */
        { &r245ca, 377.246, 4.573 }, /* V near 0: the root's argument is above 10⁸ */
        { &r245ca, 401.2, 3.54 },
        { &r245ca, 318.060749, 4.790032 }, /* Q and K near 0: the root's argument is below 1 */
        { &r245ca, 355.064526, 3.507948 },
        { &r245ca, 432.247128, 4.413722 },
        { &r245fa, 400, 0x1.d3e67617f47dep+0 }, /* Q = 0 */
        { &r245fa, 180, 0x1.48d190868a125p+1 },
        { &r245fa, 313.043691, 4.593759 }, /* Q and K near 0 */
        { &r245fa, 313.044, 4.59374 },
    };
    const struct edge *edge;
    do
        edge = &edges[below(g, sizeof edges / sizeof *edges)];
    while (edge->fluid != fluid);
    return *edge;
}

/* The critical point, or where a bell's τ − γ or δ − ε changes sign. */
static struct edge printed_edge(struct generator *g, const struct fluid *fluid)
{
    const struct row *row = &fluid->row[below(g, ROWS)];
    if (row->kind != BELL)
        return (struct edge){ fluid, fluid->Tc, fluid->rhoc };
    double centre = fluid->Tc / row->gamma;
    return (struct edge){ fluid, in_range(fluid->T, centre) ? centre : fluid->Tc,
                          fluid->rhoc * row->epsilon };
}

static struct question edge_state(struct generator *g, const struct fluid *fluid)
{
    struct edge edge = below(g, 3) ? found_edge(g, fluid) : printed_edge(g, fluid);
    uint64_t T = below(g, 4) ? closing_in(g, edge.T, 10) : nearby(g, edge.T);
    uint64_t rho = below(g, 4) ? closing_in(g, edge.rho, 1) : nearby(g, edge.rho);
    return (struct question){ .first = T, .second = rho };
}

/* Between the saturated densities and a little beyond them. */
static struct question two_phase_state(struct generator *g, const struct fluid *fluid)
{
    uint64_t T = uniform(g, fluid->T.least, fluid->Tc);
    double vapour = estimate_at(fluid, VAPOUR_DENSITY, number_of(T)).value;
    double liquid = estimate_at(fluid, LIQUID_DENSITY, number_of(T)).value;
    return (struct question){ .first = T, .second = uniform(g, 0.9 * vapour, 1.01 * liquid) };
}

static bool unstable(const struct fluid *fluid, double T, uint64_t rho)
{
    return property_at(fluid, ISOBARIC_HEAT_CAPACITY, T, number_of(rho)).code == REFUSED_UNSTABLE;
}

/* A density with 11 that has a neighbour without, between one with and one without. */
static uint64_t seam(const struct fluid *fluid, double T, uint64_t with, uint64_t without)
{
    while (with + 1 != without && without + 1 != with) {
        uint64_t middle = with / 2 + without / 2 + (with & without & 1);
        if (unstable(fluid, T, middle))
            with = middle;
        else
            without = middle;
    }
    return with;
}

/* About Q = 0 or V = 0, where one bit of either decides. */
static struct question seam_state(struct generator *g, const struct fluid *fluid)
{
    struct question tried = two_phase_state(g, fluid);
    double T = number_of(tried.first);
    if (!unstable(fluid, T, tried.second))
        return tried;
    uint64_t end = bits_of(below(g, 2) ? fluid->rho.least : fluid->rho.greatest);
    uint64_t rho = seam(fluid, T, tried.second, end) + below(g, 9) - 4;
    return (struct question){ .first = tried.first, .second = rho };
}

/* Either number may be anything. */
static struct question any_state(struct generator *g, const struct fluid *fluid)
{
    uint64_t T = temperature(g, fluid);
    return (struct question){ .first = T, .second = density(g, fluid) };
}

struct question state(struct generator *g, const struct fluid *fluid)
{
    uint64_t percent = below(g, 100);
    if (percent < 3)
        return seam_state(g, fluid);
    if (percent < 9)
        return two_phase_state(g, fluid);
    if (percent < 17)
        return edge_state(g, fluid);
    if (percent < 24)
        return gas_state(g, fluid);
    if (percent < 44)
        return any_state(g, fluid);
    return permitted_state(g, fluid);
}
