/* Compares and times the package's functions beside the same steps in C and in Rust: `time check`, `time measure`.
 *
 * Every candidate is a function of an object file of its own and is called through a pointer, so that none is inlined.
 * To add a function: declare its candidates (candidates.h), and add a line to `lines`. The line's sum knows the candidates'
 * arguments, and `width` is how many doubles are one input. */
#define _POSIX_C_SOURCE 199309L /* clock_gettime */
#include <inttypes.h>
#include <math.h>
#include <stdio.h>
#include <string.h>
#include <time.h>

#include "candidates.h"
#include "inputs.h"
#include "worked.h"

enum { INPUTS = 4096, TRIALS = 25 };

/* The temperature of kept pressures and of quick searches; every fluid has it. */
#define KEPT_T 400.0

/* ---- calls */

/* The sum of a candidate's values on the inputs, for the fluid of a number: every value is used, so no call can be dropped. The
 * sum starts with the first value and not with 0, so that the sum over one input has that value's bits. */
typedef double sum(candidate *f, uint32_t number, const double *inputs, int count);

static double sum_of_one(candidate *f, uint32_t number, const double *inputs, int count) {
    double (*call)(double) = (double (*)(double))f;
    (void)number;
    double total = call(inputs[0]);
    for (int i = 1; i < count; i++)
        total += call(inputs[i]);
    return total;
}

static double sum_of_states(candidate *f, uint32_t number, const double *inputs, int count) {
    double (*call)(uint32_t, double, double) = (double (*)(uint32_t, double, double))f;
    double total = call(number, inputs[0], inputs[1]);
    for (int i = 1; i < count; i++)
        total += call(number, inputs[2 * i], inputs[2 * i + 1]);
    return total;
}

/* One call for all densities: the candidate sums. */
static double sum_along(candidate *f, uint32_t number, const double *inputs, int count) {
    double (*call)(uint32_t, double, const double *, size_t) = (double (*)(uint32_t, double, const double *, size_t))f;
    return call(number, KEPT_T, inputs, (size_t)count);
}

/* Where no fluid has the number, a search is asked with the first fluid's top and lists. */
static uint32_t known(uint32_t number) {
    return number < FLUIDS ? number : 0;
}

static size_t top_of(uint32_t number) {
    return fluid_numbered(known(number))->top;
}

static double sum_of_plain(candidate *f, uint32_t number, const double *inputs, int count, uint32_t side) {
    double (*call)(uint32_t, double, double, size_t, uint32_t) = (double (*)(uint32_t, double, double, size_t, uint32_t))f;
    size_t top = top_of(number);
    double total = call(number, inputs[0], inputs[1], top, side);
    for (int i = 1; i < count; i++)
        total += call(number, inputs[2 * i], inputs[2 * i + 1], top, side);
    return total;
}

static double sum_of_below(candidate *f, uint32_t number, const double *inputs, int count) {
    return sum_of_plain(f, number, inputs, count, BELOW);
}

static double sum_of_above(candidate *f, uint32_t number, const double *inputs, int count) {
    return sum_of_plain(f, number, inputs, count, ABOVE);
}

/* All places of both lists count, so that a difference in one shows; emptied before, so that none is another candidate's. */
static double sum_of_lists(candidate *f, uint32_t number, const double *inputs, int count) {
    static double G[LIST_ROOM], L[LIST_ROOM];
    uint32_t (*call)(uint32_t, double, size_t, double *, size_t, double *, size_t) =
        (uint32_t (*)(uint32_t, double, size_t, double *, size_t, double *, size_t))f;
    size_t top = top_of(number), places = top + 1;
    double total = 0.0;
    for (int i = 0; i < count; i++) {
        memset(G, 0, places * sizeof *G);
        memset(L, 0, places * sizeof *L);
        total += call(number, inputs[i], top, G, places, L, places);
        for (size_t j = 0; j < places; j++)
            total += G[j] - 0.5 * L[j];
    }
    return total;
}

struct lists {
    double G[LIST_ROOM], L[LIST_ROOM];
};

/* Prepared once for each fluid. */
static const struct lists *lists_of(uint32_t number) {
    static struct lists prepared[FLUIDS];
    size_t top = top_of(number), places = top + 1;
    struct lists *lists = &prepared[known(number)];
    if (lists->G[top] == 0.0)
        bench_prepare(known(number), KEPT_T, top, lists->G, places, lists->L, places);
    return lists;
}

/* From below, over prepared lists. */
static double sum_of_quick(candidate *f, uint32_t number, const double *inputs, int count) {
    double (*call)(uint32_t, double, double, size_t, uint32_t, const double *, size_t, const double *, size_t) =
        (double (*)(uint32_t, double, double, size_t, uint32_t, const double *, size_t, const double *, size_t))f;
    const struct lists *lists = lists_of(number);
    const double *G = lists->G, *L = lists->L;
    size_t top = top_of(number), places = top + 1;
    double total = call(number, KEPT_T, inputs[0], top, BELOW, G, places, L, places);
    for (int i = 1; i < count; i++)
        total += call(number, KEPT_T, inputs[i], top, BELOW, G, places, L, places);
    return total;
}

/* ---- how many pressures a call works */

typedef double pressures(uint32_t number, const double *input);

static double none_worked(uint32_t number, const double *input) {
    (void)number, (void)input;
    return 0;
}

static double one_worked(uint32_t number, const double *input) {
    (void)number, (void)input;
    return 1;
}

static double below_worked(uint32_t number, const double *input) {
    return worked_from_below(bench_plain(number, input[0], input[1], top_of(number), BELOW));
}

static double above_worked(uint32_t number, const double *input) {
    return worked_from_above(fluid_numbered(number), bench_plain(number, input[0], input[1], top_of(number), ABOVE));
}

static double lists_worked(uint32_t number, const double *input) {
    (void)input;
    return worked_to_prepare(fluid_numbered(number));
}

static double quick_worked(uint32_t number, const double *input) {
    (void)number, (void)input;
    return worked_quickly();
}

/* ---- lines */

struct line {
    const char *name;
    const char *range;
    /* How many fluids it is asked of: 0 for a function that is of none. */
    uint32_t fluids;
    int width;
    draw *draw;
    sum *sum;
    pressures *worked;
    candidate *by[CANDIDATES];
    edges *edges;
    /* How many inputs are timed: a search takes a thousand times as long as a pressure. */
    int timed;
};

static const struct line lines[] = {
    {"exp", "-50 .. 50", 0, 1, draw_exp_near, sum_of_one, none_worked, ALL_BUT_NAIVE(exp), no_edges, INPUTS},
    {"exp", "-700 .. 700", 0, 1, draw_exp_far, sum_of_one, none_worked, ALL_BUT_NAIVE(exp), exp_edges, INPUTS},
    {"ln", "2^-60 .. 2^60", 0, 1, draw_ln, sum_of_one, none_worked, ALL_BUT_NAIVE(ln), ln_edges, INPUTS},
    {"root", "1 .. 1e8", 0, 1, draw_root, sum_of_one, none_worked, ALL_BUT_NAIVE(root), root_edges, INPUTS},
    {"pressure", "states", FLUIDS, 2, draw_state, sum_of_states, one_worked, ALL_OF(pressure), state_edges, INPUTS},
    {"entropy", "states", FLUIDS, 2, draw_state, sum_of_states, one_worked, ALL_OF(entropy), state_edges, INPUTS},
    {"isobaric heat capacity", "states", FLUIDS, 2, draw_state, sum_of_states, one_worked, ALL_OF(isobaric), state_edges,
     INPUTS},
    {"sound speed", "states", FLUIDS, 2, draw_state, sum_of_states, one_worked, ALL_OF(sound_speed), state_edges, INPUTS},
    {"pressure", "densities at 400 K", FLUIDS, 1, draw_density, sum_along, one_worked, ALL_OF(isotherm), density_edges,
     INPUTS},
    {"plain search", "from below", FLUIDS, 2, draw_question, sum_of_below, below_worked, ALL_BUT_NAIVE(plain),
     question_edges, 16},
    {"plain search", "from above", FLUIDS, 2, draw_question, sum_of_above, above_worked, ALL_BUT_NAIVE(plain),
     question_edges, 16},
    {"preparation", "temperatures", FLUIDS, 1, draw_temperature, sum_of_lists, lists_worked, ALL_BUT_NAIVE(prepare),
     temperature_edges, 4},
    {"quick search", "pressures at 400 K", FLUIDS, 1, draw_pressure, sum_of_quick, quick_worked, ALL_BUT_NAIVE(quick),
     pressure_edges, 256},
};
enum { LINES = sizeof lines / sizeof *lines };

/* A line is asked once where it is of no fluid, and then its number is looked at by nobody. */
static uint32_t times_asked(const struct line *line) {
    return line->fluids > 0 ? line->fluids : 1;
}

static double inputs[FLUIDS][INPUTS * WIDEST];

/* Each line's inputs start from the same word, so that a line that is added changes no other line's. */
static void draw_inputs(const struct line *line, uint32_t number) {
    state = 245;
    for (int i = 0; i < line->timed; i++)
        line->draw(number, inputs[number] + i * line->width);
}

/* ---- the check: all candidates give the same bits */

static uint64_t bits_of(double x) {
    uint64_t bits;
    memcpy(&bits, &x, sizeof bits);
    return bits;
}

/* The steps have one NaN, and a processor many: which one stands for it is not compared. */
static int same(double a, double b) {
    return bits_of(a) == bits_of(b) || (isnan(a) && isnan(b));
}

static double value(const struct line *line, int by, uint32_t number, const double *input) {
    return line->sum(line->by[by], number, input, 1);
}

static void say_different(const struct line *line, uint32_t number, const double *input) {
    printf("%s, fluid %" PRIu32 ", differs at %a", line->name, number, input[0]);
    for (int k = 1; k < line->width; k++)
        printf(", %a", input[k]);
    for (int by = 0; by < CANDIDATES; by++)
        if (line->by[by])
            printf("; %s %016" PRIx64, candidate_names[by], bits_of(value(line, by, number, input)));
    printf("\n");
}

static int agreed(const struct line *line, uint32_t number, const double *input) {
    double expected = value(line, PACKAGE, number, input);
    for (int by = 1; by < CANDIDATES; by++)
        if (line->by[by] && !same(expected, value(line, by, number, input))) {
            say_different(line, number, input);
            return 0;
        }
    return 1;
}

/* A timed input without a value would leave by the range test and count as a quick call. */
static int has_value(const struct line *line, uint32_t number, const double *input) {
    if (isfinite(value(line, PACKAGE, number, input)))
        return 1;
    printf("%s, fluid %" PRIu32 ", has no value at %a, an input that is to be timed\n", line->name, number, input[0]);
    return 0;
}

struct compared {
    int timed, edges, unknown;
};

static int timed_checked(const struct line *line, uint32_t number, struct compared *compared) {
    draw_inputs(line, number);
    for (int i = 0; i < line->timed; i++, compared->timed++) {
        const double *input = inputs[number] + i * line->width;
        if (!agreed(line, number, input) || !has_value(line, number, input))
            return 0;
    }
    return 1;
}

static int edges_checked(const struct line *line, uint32_t number, struct compared *compared) {
    double edge[MOST_EDGES * WIDEST];
    int count = line->edges(fluid_numbered(number), edge);
    for (int i = 0; i < count; i++, compared->edges++)
        if (!agreed(line, number, edge + i * line->width))
            return 0;
    return 1;
}

/* An input of the first fluid, asked of numbers that no fluid has. */
static int unknown_checked(const struct line *line, struct compared *compared) {
    static const uint32_t unknown[] = {FLUIDS, FLUIDS + 1, UINT32_C(1) << 31, UINT32_MAX};
    if (line->fluids == 0)
        return 1;
    draw_inputs(line, 0);
    for (size_t k = 0; k < sizeof unknown / sizeof *unknown; k++, compared->unknown++)
        if (!agreed(line, unknown[k], inputs[0]))
            return 0;
    return 1;
}

static int checked(const struct line *line, struct compared *compared) {
    for (uint32_t number = 0; number < times_asked(line); number++)
        if (!timed_checked(line, number, compared) || !edges_checked(line, number, compared))
            return 0;
    return unknown_checked(line, compared);
}

static int all_checked(void) {
    struct compared compared = {0, 0, 0};
    for (int k = 0; k < LINES; k++)
        if (!checked(lines + k, &compared))
            return 0;
    printf("all candidates give the same bits on all %d timed inputs, on %d more at the ends of the ranges\n"
           "and outside, and on %d for numbers that no fluid has\n",
           compared.timed, compared.edges, compared.unknown);
    return 1;
}

/* ---- the clock */

static double now(void) {
    struct timespec t;
    clock_gettime(CLOCK_MONOTONIC, &t);
    return 1e9 * (double)t.tv_sec + (double)t.tv_nsec;
}

/* Where the sums go, so that they are needed. */
static volatile double used;

static double pass(const struct line *line, int by, uint32_t number) {
    double start = now();
    used = line->sum(line->by[by], number, inputs[number], line->timed);
    return (now() - start) / line->timed;
}

typedef double times[FLUIDS][CANDIDATES];

static void one_turn(const struct line *line, int by, times least) {
    if (!line->by[by])
        return;
    for (uint32_t number = 0; number < times_asked(line); number++)
        least[number][by] = fmin(least[number][by], pass(line, by, number));
}

/* The least of all trials: what disturbs a pass only adds to it. The candidates take turns, each with all fluids one after the
 * other, and the first of a trial is another each time, so that a slow stretch of the machine meets them all alike. */
static void least_times(const struct line *line, times least) {
    for (int k = 0; k < FLUIDS * CANDIDATES; k++)
        least[k / CANDIDATES][k % CANDIDATES] = INFINITY;
    for (int trial = 0; trial < TRIALS; trial++)
        for (int turn = 0; turn < CANDIDATES; turn++)
            one_turn(line, (trial + turn) % CANDIDATES, least);
}

/* ---- what is written */

static double worked_in_a_call(const struct line *line, uint32_t number) {
    double total = 0.0;
    for (int i = 0; i < line->timed; i++)
        total += line->worked(number, inputs[number] + i * line->width);
    return total / line->timed;
}

/* A line for each candidate: function, fluid, inputs, candidate, nanoseconds per call, pressures worked in a call, with tabs
 * between them. */
static void print_fluid(const struct line *line, uint32_t number, const double least[CANDIDATES]) {
    const char *fluid = line->fluids > 0 ? fluid_numbered(number)->name : "—";
    for (int by = 0; by < CANDIDATES; by++)
        if (line->by[by])
            printf("%s\t%s\t%s\t%s\t%.3f\t%.2f\n", line->name, fluid, line->range, candidate_names[by], least[by],
                   worked_in_a_call(line, number));
}

static void print_times(const struct line *line) {
    times least;
    for (uint32_t number = 0; number < times_asked(line); number++)
        draw_inputs(line, number);
    least_times(line, least);
    for (uint32_t number = 0; number < times_asked(line); number++)
        print_fluid(line, number, least[number]);
}

int main(int count, char **words) {
    if (count == 2 && strcmp(words[1], "check") == 0)
        return all_checked() ? 0 : 1;
    if (count == 2 && strcmp(words[1], "measure") == 0) {
        for (int k = 0; k < LINES; k++)
            print_times(lines + k);
        return 0;
    }
    fprintf(stderr, "usage: time check | time measure\n");
    return 2;
}
