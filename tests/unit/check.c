/* Counting and printing checks. */
#include "check.h"

#include "../independent/bits.h"

#include <stdarg.h>
#include <stdio.h>
#include <string.h>

struct count counted;

void check(bool holds, const char *format, ...)
{
    va_list words;
    va_start(words, format);
    printf(holds ? "  ok: " : "  FAILED: ");
    vprintf(format, words);
    printf("\n");
    va_end(words);
    if (holds)
        counted.passed++;
    else
        counted.failed++;
}

bool same_bits(double a, double b)
{
    return bits_of(a) == bits_of(b);
}

bool close_to(double a, double b, double relative)
{
    return fabs(a - b) <= relative * fmax(fabs(a), fabs(b));
}

bool prints_as(const char *printed, double value)
{
    const char *point = strchr(printed, '.');
    int decimals = point == NULL ? 0 : (int)strlen(point + 1);
    char written[64];
    snprintf(written, sizeof written, "%.*f", decimals, value);
    return strcmp(written, printed) == 0;
}

bool refused_with(uint64_t code, struct outcome outcome)
{
    return outcome.code == code && isnan(outcome.value);
}

bool answered_with(double value, struct outcome outcome)
{
    return outcome.code == ANSWERED && same_bits(outcome.value, value);
}

bool is_answered(struct outcome outcome)
{
    return outcome.code == ANSWERED && isfinite(outcome.value);
}
