/* Questions to numbers that are no call, each call's number in the low bits among them, and to calls of no fluid. */
#include "../independent/bits.h"
#include "sheet.h"

static void ask_number(struct sheet *sheet, uint64_t number)
{
    ask(sheet, number, bits_of(300), bits_of(1));
}

static void ask_no_calls(struct sheet *sheet)
{
    static const uint64_t numbers[] = {
        0,
        4,
        9,
        19,
        23,
        29,
        36,
        99,
        101,
        102,
        103,
        109,
        119,
        123,
        136,
        199,
        299,
        (uint64_t)1 << 8 | 10,
        (uint64_t)1 << 16 | 18,
        (uint64_t)1 << 32 | 1,
        (uint64_t)1 << 32 | 10,
        (uint64_t)1 << 32 | 20,
        (uint64_t)1 << 40,
        (uint64_t)1 << 63 | 22,
        UINT64_MAX,
    };
    for (size_t i = 0; i < sizeof numbers / sizeof *numbers; i++)
        ask_number(sheet, numbers[i]);
}

/* Fluids that there are not, known ones where their number is cut to 32 bits, and inputs that 2 would refuse later. */
static void ask_no_fluids(struct sheet *sheet)
{
    static const uint64_t fluids[] = {
        FLUIDS, FLUIDS + 1, 99, (uint64_t)1 << 32, (uint64_t)1 << 32 | 1, (uint64_t)1 << 57 | 1,
    };
    for (size_t i = 0; i < sizeof fluids / sizeof *fluids; i++) {
        uint64_t from = fluids[i] * FLUID_STRIDE;
        ask_number(sheet, from + 1);
        ask_number(sheet, from + 10);
        ask_number(sheet, from + 20);
        ask_number(sheet, from + 33);
        ask_number(sheet, from + 35);
        ask_number(sheet, from + 99);
        ask(sheet, from + 18, 0x7ff8000000000000, 0x7ff8000000000000);
    }
}

void unknown_questions(struct sheet *sheet)
{
    ask_no_calls(sheet);
    ask_no_fluids(sheet);
}
