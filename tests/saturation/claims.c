/* Great lengths: cut to 32, 16 or 8 bits, or taken for negative, they come out as less than 16. */
#include "claims.h"

#include "../independent/bits.h"
#include "../independent/refusals.h"

_Static_assert(SIZE_MAX == UINT64_MAX, "the lengths below are those of 64 bits");

#define TWO_TO(exponent) ((size_t)1 << (exponent))
#define COUNT_OF(list) (sizeof(list) / sizeof *(list))

static const size_t great_lengths[] = {
    SIZE_MAX,        SIZE_MAX - 1,    SIZE_MAX - 15,   SIZE_MAX - 16,
    TWO_TO(63) + 15, TWO_TO(63),      TWO_TO(63) - 1,  /* taken for negative, and the greatest that is not */
    TWO_TO(32) + 16, TWO_TO(32) + 15, TWO_TO(32),      /* in 32 bits: as long as a pair, shorter, and nothing */
    TWO_TO(32) - 1,  TWO_TO(31),
    TWO_TO(16) + 15, TWO_TO(16),      TWO_TO(16) - 1,
    TWO_TO(8) + 15,  TWO_TO(8),       TWO_TO(8) - 1,
};

_Static_assert(COUNT_OF(great_lengths) == GREAT_LENGTHS, "the list has another length");

static void compare_length(const struct memory *memory, const struct order *order, int i, struct claims *claims)
{
    size_t length = great_lengths[i];
    struct proposal proposal = propose(order->fluid, number_of(order->T), length);
    if (proposal.code == ANSWERED)
        note(&claims->written[i], writes_its_bytes_alone(memory, order, length, proposal.pair));
    else
        note(&claims->refused[i], refuses_untouched(memory, order, length, (uint32_t)proposal.code));
}

void compare_claims(struct generator *g, const struct memory *memory, struct claims *claims)
{
    struct order order;
    for (enum warmth warmth = 0; warmth < WARMTHS; warmth++)
        for (int i = 0; i < GREAT_LENGTHS; i++)
            for (int times = 0; times < 10; times++) {
                draw_order(g, warmth, &order);
                compare_length(memory, &order, i, claims);
            }
}

/* One check: under every great length. */
static void count_lengths(const struct tally tallies[GREAT_LENGTHS], const char *what, struct sum *sum)
{
    bool passed = true;
    for (int i = 0; i < GREAT_LENGTHS; i++) {
        if (has_passed(&tallies[i], true))
            continue;
        printf("%s, a claimed length of %zu", what, great_lengths[i]);
        show_failure(&tallies[i], true);
        passed = false;
    }
    count_check(sum, passed);
}

void count_claims(const struct claims *claims, struct sum *sum)
{
    count_lengths(claims->refused, "refused", sum);
    count_lengths(claims->written, "written", sum);
}
