/* A record's code and its bytes, each byte worked out by itself. */
#include "written_expected.h"

#include <stdbool.h>

/* M-103's numbers, written here once more and not taken from the header. */
enum { KIND_D = 68, KIND_B = 66, KIND_A = 65, KIND_P = 80, KIND_N = 78, FLUID_T = 0, FLUID_F = 1 };

static bool is_kind(uint32_t kind)
{
    return kind == KIND_D || kind == KIND_B || kind == KIND_A || kind == KIND_P || kind == KIND_N;
}

static bool is_fluid(uint32_t fluid)
{
    return fluid == FLUID_T || fluid == FLUID_F;
}

/* How many bytes there are from the place on: without a sum, which a great place would carry over the end. */
static size_t room_at(size_t length, size_t place)
{
    return place < length ? length - place : 0;
}

/* 14 before 17 before 7. */
uint32_t expected_code(const struct writing *writing, size_t length, size_t place)
{
    if (!is_kind(writing->kind))
        return REFUSED_UNKNOWN;
    if (!is_fluid(writing->fluid))
        return REFUSED_UNKNOWN_FLUID;
    return room_at(length, place) < RECORD_BYTES ? REFUSED_SHORT_LIST : ANSWERED;
}

/* The k-th byte of a number, the lowest being the first. */
static uint8_t byte_of(uint64_t bits, int k)
{
    return (uint8_t)(bits >> (8 * k));
}

static uint8_t expected_byte(const struct writing *writing, int k)
{
    if (k == 0)
        return writing->fluid == FLUID_T ? 'T' : 'F';
    if (k == 1)
        return (uint8_t)writing->kind;
    if (writing->kind == KIND_N)
        return 0;
    return k < 2 + NUMBER_BYTES ? byte_of(writing->first, k - 2) : byte_of(writing->second, k - 2 - NUMBER_BYTES);
}

void expected_record(const struct writing *writing, uint8_t record[RECORD_BYTES])
{
    for (int k = 0; k < RECORD_BYTES; k++)
        record[k] = expected_byte(writing, k);
}
