/* Records to be written at random: the numbers' bits of all sorts, and kinds, fluids and places about those that are right. */
#include "written_drawn.h"

#include "../generator/draw.h"

_Static_assert(SIZE_MAX == UINT64_MAX, "the places below are those of 64 bits");

#define TWO_TO(exponent) ((size_t)1 << (exponent))
#define LETTERS_AND(more) 'D' + (more), 'B' + (more), 'A' + (more), 'P' + (more), 'N' + (more)

static const uint32_t kinds[] = {
    LETTERS_AND(0u),
    '@', 'C', 'E', 'M', 'O', 'Q',                 /* their neighbours */
    LETTERS_AND(32u),                             /* in lower case */
    'T', 'F',                                     /* the fluids' letters */
    LETTERS_AND(128u),                            /* the same in seven bits, */
    LETTERS_AND(1u << 8), LETTERS_AND(1u << 16),  /* in eight and in sixteen, */
    LETTERS_AND(1u << 24), LETTERS_AND(1u << 31), /* and but for one of the highest */
    0, UINT32_MAX,
};

static const uint32_t fluids[] = {
    0, 1,
    2, 3,                     /* the same in one bit, */
    255, 256, 257,            /* in eight, */
    65535, 65536, 65537,      /* in sixteen, */
    1u << 31, (1u << 31) + 1, /* and but for the highest */
    UINT32_MAX - 1, UINT32_MAX,
    'T', 'F', '0', '1',
};

_Static_assert(sizeof kinds / sizeof *kinds == LISTED_KINDS && sizeof fluids / sizeof *fluids == LISTED_FLUIDS,
               "a list has another length");

const char *const spot_names[SPOTS] = {
    [FIRST] = "at the first place",
    [LAST] = "at the last place with room",
    [ANYWHERE] = "at a place with room",
    [ONE_TOO_FAR] = "one byte too far",
    [CUT_OFF] = "some bytes too far",
    [AT_END] = "at the buffer's end",
    [BEYOND] = "beyond the buffer's end",
    [FAR_BEYOND] = "far beyond the buffer's end",
    [SHORT_BUFFER] = "in a buffer that is too short",
};

uint32_t listed_kind(size_t which)
{
    return kinds[which];
}

uint32_t listed_fluid(size_t which)
{
    return fluids[which];
}

size_t known_kind(uint32_t kind)
{
    size_t which = 0;
    while (which < KNOWN_KINDS && kinds[which] != kind)
        which++;
    return which;
}

size_t known_fluid(uint32_t fluid)
{
    return fluid < FLUIDS ? fluid : NO_FLUID;
}

/* Half of these have no more than seven bits. */
static uint32_t any_number(struct generator *g)
{
    uint64_t bits = any_bits(g);
    return below(g, 2) == 0 ? (uint32_t)(bits % 128) : (uint32_t)bits;
}

static uint32_t unknown_kind(struct generator *g)
{
    uint32_t kind;
    do
        kind = any_number(g);
    while (known_kind(kind) < KNOWN_KINDS);
    return kind;
}

static uint32_t unknown_fluid(struct generator *g)
{
    uint32_t fluid;
    do
        fluid = any_number(g);
    while (known_fluid(fluid) < NO_FLUID);
    return fluid;
}

static size_t any_kind(struct generator *g)
{
    uint64_t kinds_drawn = below(g, 4) == 0 ? KINDS : KNOWN_KINDS;
    return below(g, kinds_drawn);
}

static size_t any_fluid_number(struct generator *g)
{
    uint64_t numbers_drawn = below(g, 4) == 0 ? FLUID_NUMBERS : FLUIDS;
    return below(g, numbers_drawn);
}

static enum spot any_spot(struct generator *g)
{
    uint64_t spots_drawn = below(g, 2) == 0 ? SPOTS : FITTING_SPOTS;
    return (enum spot)below(g, spots_drawn);
}

struct choice any_choice(struct generator *g)
{
    struct choice choice;
    choice.kind = any_kind(g);
    choice.fluid = any_fluid_number(g);
    choice.spot = any_spot(g);
    return choice;
}

/* Patterns at which number code goes wrong as often as any other. */
static uint64_t any_pattern(struct generator *g)
{
    return below(g, 2) == 0 ? special(g) : any_bits(g);
}

static void draw_writing(struct generator *g, struct choice choice, struct writing *writing)
{
    writing->kind = choice.kind < LISTED_KINDS ? kinds[choice.kind] : unknown_kind(g);
    writing->fluid = choice.fluid < LISTED_FLUIDS ? fluids[choice.fluid] : unknown_fluid(g);
    writing->first = any_pattern(g);
    writing->second = any_pattern(g);
}

/* So that the place can be what it is to be. */
static size_t any_length(struct generator *g, enum spot spot)
{
    if (spot == SHORT_BUFFER)
        return below(g, RECORD_BYTES);
    size_t least = spot <= CUT_OFF ? RECORD_BYTES : 0;
    return least + below(g, LONGEST_BUFFER + 1 - least);
}

/* About a number that cut to fewer bits, or with 18 added in 64 bits, is a small one. */
static size_t far_place(struct generator *g)
{
    static const int exponents[] = { 8, 16, 31, 32, 63 };
    size_t which = below(g, sizeof exponents / sizeof *exponents + 1);
    if (which == sizeof exponents / sizeof *exponents)
        return SIZE_MAX - below(g, 80);
    return TWO_TO(exponents[which]) - 80 + below(g, 160);
}

static size_t any_place(struct generator *g, enum spot spot, size_t length)
{
    switch (spot) {
    case LAST:
        return length - RECORD_BYTES;
    case ANYWHERE:
        return below(g, length - RECORD_BYTES + 1);
    case ONE_TOO_FAR:
        return length - RECORD_BYTES + 1;
    case CUT_OFF:
        return length - 1 - below(g, RECORD_BYTES - 1);
    case AT_END:
        return length;
    case BEYOND:
        return length + 1 + below(g, FURTHEST_PLACE - length);
    case FAR_BEYOND:
        return far_place(g);
    case SHORT_BUFFER:
        return below(g, length + 1);
    default:
        return 0;
    }
}

void draw_order(struct generator *g, struct choice choice, struct order *order)
{
    draw_writing(g, choice, &order->writing);
    order->length = any_length(g, choice.spot);
    order->place = any_place(g, choice.spot, order->length);
    for (size_t k = 0; k < LONGEST_BUFFER; k++)
        order->before[k] = (uint8_t)any_bits(g);
}
