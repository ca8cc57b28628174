/* Questions to exp, ln and root. */
#include "../independent/bits.h"
#include "../special.h"
#include "../splitmix.h"
#include "sheet.h"

enum { SPREAD = 60 };

/* Patterns of positive numbers rise with the numbers: evenly spread in magnitude. */
static void ask_magnitudes(struct sheet *sheet, uint64_t call, double least, double greatest,
                           uint64_t sign)
{
    uint64_t state = ~call;
    uint64_t width = (bits_of(greatest) - bits_of(least)) / SPREAD;
    for (uint64_t i = 0; i < SPREAD; i++)
        ask(sheet, call, (bits_of(least) + i * width + splitmix(&state) % width) | sign, 0);
}

void exp_questions(struct sheet *sheet)
{
    static const double picked[] = { 0, 1, -1, 2, -2, 0.5, -0.5, 10, -10, 701, -701, 1e8 };
    ask_each(sheet, 1, picked, sizeof picked / sizeof *picked);
    ask_about(sheet, 1, 700);
    ask_about(sheet, 1, -700);
    ask_specials(sheet, 1);
    ask_with_seconds(sheet, 1, 1);
    ask_uniform(sheet, 1, -700, 700, SPREAD);
    ask_magnitudes(sheet, 1, 0x1p-80, 700, 0);
    ask_magnitudes(sheet, 1, 0x1p-80, 700, SIGN_BIT);
}

void ln_questions(struct sheet *sheet)
{
    static const double picked[] = { 1, 2, 4, 0.5, 10, 1e-10, 1e10, 400, -1, -2, -0x1p60, 1e20 };
    ask_each(sheet, 2, picked, sizeof picked / sizeof *picked);
    ask_about(sheet, 2, 0x1p-60);
    ask_about(sheet, 2, 0x1p60);
    ask_about(sheet, 2, 0.75);
    ask_about(sheet, 2, 1);
    ask_about(sheet, 2, 1.5);
    ask_about(sheet, 2, 3);
    ask_specials(sheet, 2);
    ask_with_seconds(sheet, 2, 2);
    ask_uniform(sheet, 2, 0, 16, SPREAD);
    ask_magnitudes(sheet, 2, 0x1p-60, 0x1p60, 0);
}

void root_questions(struct sheet *sheet)
{
    static const double picked[] = { 1, 2, 3, 4, 65536, 1e8, 0.5, -1, -4, -65536, 1e9 };
    ask_each(sheet, 3, picked, sizeof picked / sizeof *picked);
    ask_about(sheet, 3, 1);
    ask_about(sheet, 3, 1e8);
    ask_about(sheet, 3, 65536);
    ask_specials(sheet, 3);
    ask_with_seconds(sheet, 3, 2);
    ask_uniform(sheet, 3, 1, 1e8, SPREAD);
    ask_magnitudes(sheet, 3, 1, 1e8, 0);
}
