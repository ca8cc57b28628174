/*
 * The C call that writes a record against the independent implementation: kinds, fluids and bits of all sorts, buffers of 0 to
 * 60 bytes, and places in them and far beyond. What is returned and all bytes of the buffer are compared, which begins where
 * memory that may not be touched ends, and then ends where it begins. What was written is read back, and what was read is
 * written again.
 *
 *     written SEED COUNT
 */
#include "../../include/verriblom.h"
#include "../generator/draw.h"
#include "written_counts.h"
#include "written_trips.h"

#include <stdlib.h>

enum { DIFFERENCES_SHOWN = 5, SMALL_NUMBERS = 1024 };

/* The header's numbers are M-103's, and 01's and M-100's. */
_Static_assert(VERRIBLOM_KIND_TEMPERATURE_DENSITY == 68 && VERRIBLOM_KIND_FROM_BELOW == 66 && VERRIBLOM_KIND_FROM_ABOVE == 65
                   && VERRIBLOM_KIND_NO_SIDE == 80 && VERRIBLOM_KIND_NO_READING == 78,
               "a kind of the header is another than M-103's");
_Static_assert(VERRIBLOM_R245CA == 0 && VERRIBLOM_R245FA == 1, "a fluid of the header is another than M-103's");
_Static_assert((int)VERRIBLOM_ANSWERED == (int)ANSWERED && (int)VERRIBLOM_OUTPUT_TOO_SHORT == (int)REFUSED_SHORT_LIST
                   && (int)VERRIBLOM_UNKNOWN_MARK == (int)REFUSED_UNKNOWN
                   && (int)VERRIBLOM_UNKNOWN_FLUID == (int)REFUSED_UNKNOWN_FLUID
                   && VERRIBLOM_RECORD_BYTES == (int)RECORD_BYTES,
               "a code or the length of the header is another than M-103's");

/* The first byte that is another, or as many as there are. */
static size_t differing_byte(const struct order *order, const struct result *got, const struct result *wanted)
{
    size_t k = 0;
    while (k < order->length && got->after[k] == wanted->after[k])
        k++;
    return k;
}

static void show_result(const struct order *order, const struct result *got, const struct result *wanted)
{
    size_t differing = differing_byte(order, got, wanted);
    printf(" %" PRIu32, got->code);
    if (differing < order->length)
        printf(" (byte %zu differs)", differing);
}

/* Written out at once, as a later call may end the program. */
static void show_difference(const struct order *order, const struct result got[ENDS], const struct result *wanted)
{
    const struct writing *writing = &order->writing;
    printf("  kind %" PRIu32 ", fluid %" PRIu32 ", %016" PRIx64 " %016" PRIx64 ", at %zu of %zu bytes: expected %" PRIu32,
           writing->kind, writing->fluid, writing->first, writing->second, order->place, order->length, wanted->code);
    printf(", returned");
    show_result(order, &got[0], wanted);
    printf(" and");
    show_result(order, &got[1], wanted);
    printf("\n");
    fflush(stdout);
}

/* Whether the record was written or refused as it should be. */
static bool compare(const struct written_memory *memory, const struct order *order, struct counts *counts)
{
    struct result wanted, got[ENDS];
    expect_result(order, &wanted);
    bool same = does_as_wanted(memory, order, &wanted, got);
    size_t kind = known_kind(order->writing.kind), fluid = known_fluid(order->writing.fluid);
    note(&counts->codes[kind][fluid][wanted.code], same);
    if (wanted.code == ANSWERED)
        note(&counts->read[kind][fluid], reads_as_ordered(order, got[0].after) && reads_as_ordered(order, got[1].after));
    if (!same && counts->shown++ < DIFFERENCES_SHOWN)
        show_difference(order, got, &wanted);
    return same;
}

static int applying(struct choice choice)
{
    return (choice.kind < KNOWN_KINDS ? 0 : KIND_UNKNOWN) | (choice.fluid < FLUIDS ? 0 : FLUID_UNKNOWN)
        | (choice.spot < FITTING_SPOTS ? 0 : NO_ROOM);
}

/* M-103: 14, then 17, then 7. */
static const uint32_t first_applying[APPLYING] = {
    [0] = 0,
    [KIND_UNKNOWN] = 14,
    [FLUID_UNKNOWN] = 17,
    [NO_ROOM] = 7,
    [KIND_UNKNOWN | FLUID_UNKNOWN] = 14,
    [KIND_UNKNOWN | NO_ROOM] = 14,
    [FLUID_UNKNOWN | NO_ROOM] = 17,
    [KIND_UNKNOWN | FLUID_UNKNOWN | NO_ROOM] = 14,
};

static void compare_choice(struct generator *g, const struct written_memory *memory, struct choice choice,
                           struct counts *counts)
{
    struct order order;
    draw_order(g, choice, &order);
    bool same = compare(memory, &order, counts);
    uint32_t wanted = expected_code(&order.writing, order.length, order.place);
    note(&counts->choices[choice.kind][choice.fluid][choice.spot], same);
    note(&counts->applying[applying(choice)], same && wanted == first_applying[applying(choice)]);
}

/* Every choice once, so that each is met however few are drawn. */
static void compare_every_choice(struct generator *g, const struct written_memory *memory, struct counts *counts)
{
    for (size_t kind = 0; kind < KINDS; kind++)
        for (size_t fluid = 0; fluid < FLUID_NUMBERS; fluid++)
            for (enum spot spot = 0; spot < SPOTS; spot++)
                compare_choice(g, memory, (struct choice){ kind, fluid, spot }, counts);
}

/* A kind and a fluid that are known, and a place that fits. */
static void draw_known(struct generator *g, struct order *order)
{
    struct choice choice;
    choice.kind = below(g, KNOWN_KINDS);
    choice.fluid = below(g, FLUIDS);
    choice.spot = ANYWHERE;
    draw_order(g, choice, order);
}

static void compare_every_place(struct generator *g, const struct written_memory *memory, struct counts *counts)
{
    struct order order;
    for (size_t length = 0; length <= LONGEST_BUFFER; length++)
        for (size_t place = 0; place <= FURTHEST_PLACE; place++) {
            draw_known(g, &order);
            order.length = length;
            order.place = place;
            note(&counts->places, compare(memory, &order, counts));
        }
}

static void compare_small_numbers(struct generator *g, const struct written_memory *memory, struct counts *counts)
{
    struct order order;
    for (uint32_t number = 0; number < SMALL_NUMBERS; number++) {
        draw_known(g, &order);
        order.writing.kind = number;
        note(&counts->small_kinds, compare(memory, &order, counts));
        draw_known(g, &order);
        order.writing.fluid = number;
        note(&counts->small_fluids, compare(memory, &order, counts));
    }
}

static void rewrite(struct generator *g, const struct written_memory *memory, size_t kind, size_t fluid, struct counts *counts)
{
    note(&counts->rewritten[kind][fluid], is_rewritten(g, memory, kind, fluid));
}

static void rewrite_every_mark(struct generator *g, const struct written_memory *memory, struct counts *counts)
{
    for (size_t kind = 0; kind < KNOWN_KINDS; kind++)
        for (size_t fluid = 0; fluid < FLUIDS; fluid++)
            rewrite(g, memory, kind, fluid, counts);
    note(&counts->marks, marks_are_those_written(memory));
}

static void compare_drawn(struct generator *g, const struct written_memory *memory, struct counts *counts)
{
    compare_choice(g, memory, any_choice(g), counts);
    size_t kind = below(g, KNOWN_KINDS);
    size_t fluid = below(g, FLUIDS);
    rewrite(g, memory, kind, fluid, counts);
}

static void compare_all(struct generator *g, const struct written_memory *memory, uint64_t count, struct counts *counts)
{
    compare_every_choice(g, memory, counts);
    compare_every_place(g, memory, counts);
    compare_small_numbers(g, memory, counts);
    rewrite_every_mark(g, memory, counts);
    for (uint64_t i = 0; i < count; i++)
        compare_drawn(g, memory, counts);
    compare_claims(g, memory, &counts->claims);
}

int main(int argc, char **argv)
{
    if (argc != 3) {
        fprintf(stderr, "usage: written SEED COUNT\n");
        return 2;
    }
    struct generator g = { .state = strtoull(argv[1], NULL, 10) };
    uint64_t count = strtoull(argv[2], NULL, 10);
    struct written_memory memory;
    if (!lend_written_memory(&memory)) {
        fprintf(stderr, "written: no guarded memory\n");
        return 2;
    }
    static struct counts counts;
    compare_all(&g, &memory, count, &counts);
    show_codes(&counts);
    struct sum sum = count_all(&counts);
    printf("%d passed, %d failed\n", sum.passed, sum.failed);
    return sum.failed != 0;
}
