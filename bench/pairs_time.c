/*
 * Compares and times the calls for saturation pairs beside the same steps in C and in Rust, and a state's entropy beside them, for
 * the scale.
 *
 *     pairs_time check      compares codes and bytes
 *     pairs_time measure    prints a line for each call, fluid and candidate, with the least nanoseconds of all trials
 */
#define _DEFAULT_SOURCE
#include "../include/verriblom.h"
#include "../tests/independent/fluid.h"
#include "../tests/independent/pair.h"
#include "../tests/splitmix.h"
#include "clock.h"

#include <inttypes.h>
#include <math.h>
#include <stddef.h>
#include <stdio.h>
#include <string.h>

typedef uint32_t saturation_call(uint32_t number, double T, uint8_t *out, size_t out_len);
typedef uint32_t accept_call(uint32_t number, double T, double liquid, double vapour);
typedef double entropy_call(uint32_t number, double T, double rho);

saturation_call c_o2_saturation, c_o3_saturation, rust_saturation;
accept_call c_o2_accept, c_o3_accept, rust_accept;
entropy_call bench_entropy, c_o2_entropy, c_o3_entropy, rust_entropy;
/* Where there is no sound speed, a state is not timed. */
entropy_call bench_sound_speed;

enum { PACKAGE, C_O2, C_O3, RUST, CANDIDATES };

/* The calls for C have no entropy: the crate `bench` has it. */
static const struct candidate {
    const char *name;
    saturation_call *saturation;
    accept_call *accept;
    entropy_call *entropy;
} candidates[CANDIDATES] = {
    [PACKAGE] = { "package", verriblom_saturation, verriblom_accept, bench_entropy },
    [C_O2] = { "C -O2", c_o2_saturation, c_o2_accept, c_o2_entropy },
    [C_O3] = { "C -O3", c_o3_saturation, c_o3_accept, c_o3_entropy },
    [RUST] = { "Rust", rust_saturation, rust_accept, rust_entropy },
};

enum { INPUTS = 1024, TRIALS = 25, DRAWN = 20000, ROOM = 24 };

#define COUNT_OF(list) (sizeof(list) / sizeof *(list))

/* ---- what is timed */

/* A temperature and the pair that the package has there, and a state. */
struct input {
    double T;
    struct pair pair;
    double state_T, state_rho;
};

static struct input inputs[FLUIDS][INPUTS];

/* Even from the least temperature to 1 K below the critical one. */
static double drawn_temperature(const struct fluid *fluid, uint64_t *state) {
    return splitmix_uniform(state, fluid->T.least, fluid->Tc - 1);
}

static struct pair package_pair(uint32_t number, double T) {
    struct pair pair = { NAN, NAN };
    uint8_t out[PAIR_BYTES];
    if (verriblom_saturation(number, T, out, sizeof out) == 0) {
        memcpy(&pair.liquid, out, 8);
        memcpy(&pair.vapour, out + 8, 8);
    }
    return pair;
}

static void draw_pairs(uint32_t number) {
    uint64_t state = 245;
    for (int i = 0; i < INPUTS; i++) {
        inputs[number][i].T = drawn_temperature(fluid_numbered(number), &state);
        inputs[number][i].pair = package_pair(number, inputs[number][i].T);
    }
}

/* The states of bench/run. */
static void draw_state(uint32_t number, uint64_t *state, struct input *input) {
    const struct fluid *fluid = fluid_numbered(number);
    do {
        input->state_T = splitmix_uniform(state, fluid->T.least, fluid->T.greatest);
        input->state_rho = splitmix(state) >> 63 ? splitmix_uniform(state, fluid->rhoc, fluid->rho.greatest)
                                                 : splitmix_uniform(state, fluid->rho.least, fluid->rhoc);
    } while (isnan(bench_sound_speed(number, input->state_T, input->state_rho)));
}

static void draw_states(uint32_t number) {
    uint64_t state = 245;
    for (int i = 0; i < INPUTS; i++)
        draw_state(number, &state, &inputs[number][i]);
}

static void draw_inputs(void) {
    for (uint32_t number = 0; number < FLUIDS; number++) {
        draw_pairs(number);
        draw_states(number);
    }
}

/* ---- the check */

static uint64_t compared;

static int say_different(const char *what, int c, uint32_t number, double T) {
    printf("%s of %s differs for fluid %" PRIu32 " at %a K\n", what, candidates[c].name, number, T);
    return 0;
}

static int same_saturation(uint32_t number, double T, size_t room) {
    uint8_t wanted[ROOM], got[ROOM];
    memset(wanted, 0xa5, sizeof wanted);
    uint32_t code = verriblom_saturation(number, T, wanted, room);
    compared++;
    for (int c = 1; c < CANDIDATES; c++) {
        memset(got, 0xa5, sizeof got);
        if (candidates[c].saturation(number, T, got, room) != code || memcmp(got, wanted, sizeof got) != 0)
            return say_different("saturation", c, number, T);
    }
    return 1;
}

static int same_accept(uint32_t number, double T, struct pair pair) {
    uint32_t code = verriblom_accept(number, T, pair.liquid, pair.vapour);
    compared++;
    for (int c = 1; c < CANDIDATES; c++)
        if (candidates[c].accept(number, T, pair.liquid, pair.vapour) != code)
            return say_different("accept", c, number, T);
    return 1;
}

/* Any NaN equals any NaN. */
static int same_entropy(uint32_t number, const struct input *input) {
    double wanted = bench_entropy(number, input->state_T, input->state_rho);
    compared++;
    for (int c = 1; c < CANDIDATES; c++) {
        double got = candidates[c].entropy(number, input->state_T, input->state_rho);
        if (memcmp(&got, &wanted, sizeof got) != 0 && !(isnan(got) && isnan(wanted)))
            return say_different("entropy", c, number, input->state_T);
    }
    return 1;
}

static int same_in_all_rooms(uint32_t number, double T) {
    static const size_t rooms[] = { 0, 1, PAIR_BYTES - 1, PAIR_BYTES, PAIR_BYTES + 1, ROOM };
    for (size_t k = 0; k < COUNT_OF(rooms); k++)
        if (!same_saturation(number, T, rooms[k]))
            return 0;
    return 1;
}

/* The package's pair at T, the doubles next to it, and what the tests before the work and after it refuse. */
static int same_judgements(uint32_t number, const struct fluid *fluid, double T) {
    struct pair pair = package_pair(number, T);
    double l = pair.liquid, v = pair.vapour;
    const double liquids[] = { l, nextafter(l, 0), nextafter(l, INFINITY), l * (1 + 1e-9), l * (1 - 1e-12), v, fluid->rhoc,
                               nextafter(fluid->rhoc, INFINITY), fluid->rho.greatest, nextafter(fluid->rho.greatest, INFINITY),
                               0.0, -0.0, -1.0, NAN, INFINITY };
    const double vapours[] = { v, nextafter(v, 0), nextafter(v, INFINITY), v * (1 + 1e-9), v * (1 - 1e-12), l, fluid->rhoc,
                               nextafter(fluid->rhoc, 0), 0x1p-1074, 0x1p-80, fluid->rho.greatest, 0.0, -0.0, -1.0, NAN,
                               -INFINITY };
    for (size_t i = 0; i < COUNT_OF(liquids); i++)
        for (size_t k = 0; k < COUNT_OF(vapours); k++)
            if (!same_accept(number, T, (struct pair){ liquids[i], vapours[k] }))
                return 0;
    return 1;
}

/* Whole kelvins, from below the range to above it. */
static int same_kelvins(uint32_t number, const struct fluid *fluid) {
    for (double T = fluid->T.least - 2; T <= fluid->T.greatest + 2; T++)
        if (!same_saturation(number, T, PAIR_BYTES) || !same_judgements(number, fluid, T))
            return 0;
    return 1;
}

/* Over the whole range, which has a part above the critical temperature. */
static int same_drawn(uint32_t number, const struct fluid *fluid) {
    uint64_t state = 105;
    for (int k = 0; k < DRAWN; k++) {
        double T = splitmix_uniform(&state, fluid->T.least, fluid->T.greatest);
        if (!same_saturation(number, T, PAIR_BYTES) || !same_accept(number, T, package_pair(number, T)))
            return 0;
    }
    return 1;
}

/* From 1 K to some 1e-15 of it below the critical temperature, and above. */
static int same_near_critical(uint32_t number, const struct fluid *fluid) {
    for (double below = 1; below > 1e-15; below /= 1.25)
        if (!same_saturation(number, fluid->Tc - below, PAIR_BYTES) || !same_saturation(number, fluid->Tc + below, PAIR_BYTES) ||
            !same_judgements(number, fluid, fluid->Tc - below))
            return 0;
    return 1;
}

/* The ends, the doubles next to them, and what is no number. */
static int same_edges(uint32_t number, const struct fluid *fluid) {
    struct range T = fluid->T;
    const double edges[] = { T.least, nextafter(T.least, 0), nextafter(T.least, INFINITY), T.greatest, nextafter(T.greatest, 0),
                             nextafter(T.greatest, INFINITY), fluid->Tc, nextafter(fluid->Tc, 0), nextafter(fluid->Tc, INFINITY),
                             300, 0.0, -0.0, -300, 0x1p-1074, 1e300, NAN, INFINITY, -INFINITY };
    for (size_t k = 0; k < COUNT_OF(edges); k++)
        if (!same_in_all_rooms(number, edges[k]) || !same_judgements(number, fluid, edges[k]))
            return 0;
    return 1;
}

/* A refused call would count as a quick one. */
static int same_timed(uint32_t number) {
    for (int i = 0; i < INPUTS; i++) {
        const struct input *input = &inputs[number][i];
        if (!same_saturation(number, input->T, PAIR_BYTES) || !same_accept(number, input->T, input->pair) ||
            !same_entropy(number, input))
            return 0;
        if (verriblom_accept(number, input->T, input->pair.liquid, input->pair.vapour) != 0) {
            printf("fluid %" PRIu32 " has no pair at %a K, and it is to be timed\n", number, input->T);
            return 0;
        }
    }
    return 1;
}

static int same_unknown(void) {
    static const uint32_t numbers[] = { FLUIDS, FLUIDS + 1, UINT32_C(1) << 31, UINT32_MAX };
    for (size_t k = 0; k < COUNT_OF(numbers); k++)
        if (!same_edges(numbers[k], fluid_numbered(0)))
            return 0;
    return 1;
}

static int all_same(void) {
    for (uint32_t number = 0; number < FLUIDS; number++) {
        const struct fluid *fluid = fluid_numbered(number);
        if (!same_kelvins(number, fluid) || !same_drawn(number, fluid) || !same_near_critical(number, fluid) ||
            !same_edges(number, fluid) || !same_timed(number))
            return 0;
    }
    if (!same_unknown())
        return 0;
    printf("all candidates give the same codes and bytes on %" PRIu64 " calls\n", compared);
    return 1;
}

/* ---- the clock */

/* Where the results go, so that they are needed. */
static volatile uint32_t used_codes;
static volatile double used_sum;

typedef void pass(const struct candidate *by, uint32_t number);

static void pass_saturation(const struct candidate *by, uint32_t number) {
    uint8_t out[PAIR_BYTES];
    uint32_t codes = 0;
    for (int i = 0; i < INPUTS; i++)
        codes += by->saturation(number, inputs[number][i].T, out, sizeof out);
    used_codes = codes + out[0];
}

static void pass_accept(const struct candidate *by, uint32_t number) {
    uint32_t codes = 0;
    for (int i = 0; i < INPUTS; i++) {
        const struct input *input = &inputs[number][i];
        codes += by->accept(number, input->T, input->pair.liquid, input->pair.vapour);
    }
    used_codes = codes;
}

static void pass_entropy(const struct candidate *by, uint32_t number) {
    double sum = 0.0;
    for (int i = 0; i < INPUTS; i++)
        sum += by->entropy(number, inputs[number][i].state_T, inputs[number][i].state_rho);
    used_sum = sum;
}

static const struct line {
    const char *name;
    pass *pass;
    /* How many pairs of densities a call works; of a proposal, as many as its rounds and one more. */
    int rounds, pairs;
} lines[] = {
    { "saturation", pass_saturation, 1, 1 },
    { "accept", pass_accept, 0, 1 },
    { "a state's entropy", pass_entropy, 0, 0 },
};

static double nanoseconds(const struct line *line, int c, uint32_t number) {
    double begin = seconds();
    line->pass(&candidates[c], number);
    return 1e9 * (seconds() - begin) / INPUTS;
}

/* The candidates take turns, and the first of a trial is another each time, so that a slow stretch of the machine meets them all
 * alike. */
static void least_times(const struct line *line, uint32_t number, double least[CANDIDATES]) {
    for (int c = 0; c < CANDIDATES; c++)
        least[c] = INFINITY;
    for (int trial = 0; trial < TRIALS; trial++)
        for (int turn = 0; turn < CANDIDATES; turn++) {
            int c = (trial + turn) % CANDIDATES;
            least[c] = fmin(least[c], nanoseconds(line, c, number));
        }
}

/* The tests' own proposer counts its rounds. */
static double pairs_worked(const struct line *line, uint32_t number) {
    double rounds = 0;
    for (int i = 0; i < INPUTS; i++)
        rounds += propose(number, inputs[number][i].T, PAIR_BYTES).rounds;
    return line->pairs + line->rounds * rounds / INPUTS;
}

/* Call, fluid, candidate, nanoseconds, pairs of densities worked in a call, with tabs between them. */
static void print_times(const struct line *line, uint32_t number) {
    double least[CANDIDATES];
    least_times(line, number, least);
    for (int c = 0; c < CANDIDATES; c++)
        printf("%s\t%s\t%s\t%.3f\t%.3f\n", line->name, fluid_numbered(number)->name, candidates[c].name, least[c],
               pairs_worked(line, number));
}

static int measure_all(void) {
    for (size_t k = 0; k < COUNT_OF(lines); k++)
        for (uint32_t number = 0; number < FLUIDS; number++)
            print_times(&lines[k], number);
    return fflush(stdout) != 0;
}

int main(int count, char **words) {
    draw_inputs();
    if (count == 2 && strcmp(words[1], "check") == 0)
        return all_same() ? 0 : 1;
    return count == 2 && strcmp(words[1], "measure") == 0 ? measure_all() : 2;
}
