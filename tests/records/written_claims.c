/*
 * The call with lengths and places that no memory has. Where they are wrongly worked with, carried over the end of 64 bits, cut
 * to 32, 16 or 8, or taken for negative, they come out as small ones.
 */
#include "written_claims.h"

_Static_assert(SIZE_MAX == UINT64_MAX, "the lengths and places below are those of 64 bits");

#define TWO_TO(exponent) ((size_t)1 << (exponent))
#define COUNT_OF(list) (sizeof(list) / sizeof *(list))

static const size_t great_lengths[] = {
    SIZE_MAX,        SIZE_MAX - 1,    SIZE_MAX - 17,   SIZE_MAX - 18,
    TWO_TO(63) + 1,  TWO_TO(63),      TWO_TO(63) - 1,  /* taken for negative, and the greatest that is not */
    TWO_TO(32) + 18, TWO_TO(32) + 17, TWO_TO(32),      /* in 32 bits: as long as a record, shorter, and nothing */
    TWO_TO(32) - 1,  TWO_TO(31),
    TWO_TO(16) + 17, TWO_TO(16),      TWO_TO(8) + 17,  TWO_TO(8),
};

static const size_t great_places[] = {
    SIZE_MAX,        SIZE_MAX - 1,    SIZE_MAX - 16,
    SIZE_MAX - 17,   SIZE_MAX - 18,                    /* 18 more are 0, and the greatest that are not carried over */
    SIZE_MAX - 19,   SIZE_MAX - 35,   SIZE_MAX - 59,
    TWO_TO(63) + 1,  TWO_TO(63),      TWO_TO(63) - 1,
    TWO_TO(63) - 18, TWO_TO(63) - 19,                  /* 18 more are taken for negative, and are not yet */
    TWO_TO(32) + 18, TWO_TO(32) + 1,  TWO_TO(32),      TWO_TO(32) - 1, TWO_TO(32) - 17, TWO_TO(32) - 18,
    TWO_TO(31),
    TWO_TO(16) + 1,  TWO_TO(16),
    TWO_TO(8) + 1,   TWO_TO(8),
};

_Static_assert(COUNT_OF(great_lengths) == GREAT_LENGTHS && COUNT_OF(great_places) == GREAT_PLACES, "a list has another length");

/* A record further on than this is not asked for: its buffer might begin before all memory. */
static const size_t furthest_reached = TWO_TO(40);

/* What is refused whatever the room is. */
static const struct choice refused_anyway[] = {
    { KINDS - 1, 0, FIRST },                 /* 14 */
    { 0, FLUID_NUMBERS - 1, FIRST },         /* 17 */
    { KINDS - 1, FLUID_NUMBERS - 1, FIRST }, /* 14 before 17 */
};

/* At a great place of buffers of every length. */
static void compare_great_place(struct generator *g, const struct written_memory *memory, struct choice choice, int i,
                                struct claims *claims)
{
    struct order order;
    struct result wanted, got[ENDS];
    for (size_t length = 0; length <= LONGEST_BUFFER; length++) {
        draw_order(g, choice, &order);
        order.length = length;
        order.place = great_places[i];
        expect_result(&order, &wanted);
        note(&claims->places[i], wanted.code != ANSWERED && does_as_wanted(memory, &order, &wanted, got));
    }
}

/* Of a great length, at a place that may be any. */
static void compare_great_length(const struct written_memory *memory, const struct writing *writing, int i, size_t place,
                                 struct claims *claims)
{
    size_t length = great_lengths[i];
    uint32_t code = expected_code(writing, length, place);
    if (code != ANSWERED)
        note(&claims->refused[i], refuses_untouched(memory, writing, length, place, code));
    else if (place <= furthest_reached)
        note(&claims->written[i], writes_its_bytes_alone(memory, writing, length, place));
}

static void compare_places(struct generator *g, const struct written_memory *memory, struct choice choice, int i,
                           struct claims *claims)
{
    size_t length = great_lengths[i];
    const size_t places[] = {
        0, 1, RECORD_BYTES - 1, RECORD_BYTES, FURTHEST_PLACE, TWO_TO(40),
        length - RECORD_BYTES - 1, length - RECORD_BYTES, length - RECORD_BYTES + 1, length - 1, length, length + 1,
    };
    struct order order;
    draw_order(g, choice, &order);
    for (size_t k = 0; k < COUNT_OF(places); k++)
        compare_great_length(memory, &order.writing, i, places[k], claims);
    for (size_t k = 0; k < COUNT_OF(great_places); k++)
        compare_great_length(memory, &order.writing, i, great_places[k], claims);
}

static void compare_choice(struct generator *g, const struct written_memory *memory, struct choice choice,
                           struct claims *claims)
{
    for (int i = 0; i < GREAT_PLACES; i++)
        compare_great_place(g, memory, choice, i, claims);
    for (int i = 0; i < GREAT_LENGTHS; i++)
        compare_places(g, memory, choice, i, claims);
}

void compare_claims(struct generator *g, const struct written_memory *memory, struct claims *claims)
{
    for (size_t kind = 0; kind < KNOWN_KINDS; kind++)
        for (size_t fluid = 0; fluid < FLUIDS; fluid++)
            compare_choice(g, memory, (struct choice){ kind, fluid, FIRST }, claims);
    for (size_t k = 0; k < COUNT_OF(refused_anyway); k++)
        compare_choice(g, memory, refused_anyway[k], claims);
}

/* One check: under every great number of its list. */
static void count_list(const struct tally *tallies, const size_t *numbers, int count, const char *what, struct sum *sum)
{
    bool passed = true;
    for (int i = 0; i < count; i++) {
        if (has_passed(&tallies[i], true))
            continue;
        printf("%s %zu", what, numbers[i]);
        show_failure(&tallies[i], true);
        passed = false;
    }
    count_check(sum, passed);
}

void count_claims(const struct claims *claims, struct sum *sum)
{
    count_list(claims->places, great_places, GREAT_PLACES, "the place", sum);
    count_list(claims->refused, great_lengths, GREAT_LENGTHS, "refused, a claimed length of", sum);
    count_list(claims->written, great_lengths, GREAT_LENGTHS, "written, a claimed length of", sum);
}
