/* Asking, and asking one call about many numbers. */
#include "sheet.h"

#include "../independent/bits.h"
#include "../special.h"
#include "../splitmix.h"

#include <stdio.h>
#include <stdlib.h>

enum { NEIGHBOURS = 2 };

void ask(struct sheet *sheet, uint64_t call, uint64_t first, uint64_t second)
{
    if (sheet->count == QUESTIONS_MOST) {
        fprintf(stderr, "more than %d questions\n", QUESTIONS_MOST);
        exit(EXIT_FAILURE);
    }
    sheet->question[sheet->count++] =
        (struct question){ .call = call, .first = first, .second = second };
}

void ask_one(struct sheet *sheet, uint64_t call, double first)
{
    ask(sheet, call, bits_of(first), 0);
}

void ask_each(struct sheet *sheet, uint64_t call, const double *firsts, size_t count)
{
    for (size_t i = 0; i < count; i++)
        ask_one(sheet, call, firsts[i]);
}

void ask_about(struct sheet *sheet, uint64_t call, double number)
{
    for (uint64_t i = 0; i <= 2 * NEIGHBOURS; i++)
        ask(sheet, call, bits_of(number) - NEIGHBOURS + i, 0);
}

void ask_specials(struct sheet *sheet, uint64_t call)
{
    for (size_t i = 0; i < SPECIAL_PATTERNS; i++)
        ask(sheet, call, special_patterns[i], 0);
}

void ask_with_seconds(struct sheet *sheet, uint64_t call, double first)
{
    ask(sheet, call, bits_of(first), bits_of(1));
    ask(sheet, call, bits_of(first), 0x7ff8000000000000);
    ask(sheet, call, bits_of(first), UINT64_MAX);
}

void ask_uniform(struct sheet *sheet, uint64_t call, double least, double greatest, int count)
{
    uint64_t state = call;
    for (int i = 0; i < count; i++)
        ask_one(sheet, call, splitmix_uniform(&state, least, greatest));
}
