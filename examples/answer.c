/* Asks Verriblom records of both fluids by its C call and prints what it answers. */
#include "numbers.h"
#include "verriblom.h"

#include <inttypes.h>
#include <stdio.h>

static void ask(const char *mark, double first, double second, const char *unit)
{
    uint8_t record[VERRIBLOM_RECORD_BYTES], out[VERRIBLOM_NUMBER_BYTES];
    put_record(record, mark, first, second);
    uint32_t code = verriblom_answer(record, sizeof record, out, sizeof out);
    if (code == VERRIBLOM_ANSWERED)
        printf("%s %.10g %.10g: %.6f %s\n", mark, first, second, number_at(out), unit);
    else
        printf("%s %.10g %.10g: refused, %" PRIu32 "\n", mark, first, second, code);
}

int main(void)
{
    ask(VERRIBLOM_MARK_TEMPERATURE_DENSITY, 250, 11.3, "Pa");
    ask(VERRIBLOM_MARK_FROM_BELOW, 300, 50000, "mol/dm3");
    ask(VERRIBLOM_MARK_FROM_ABOVE, 300, 50000, "mol/dm3");
    ask(VERRIBLOM_MARK_FROM_ABOVE, 500, 50000, "mol/dm3");
    ask(VERRIBLOM_R245FA_MARK_TEMPERATURE_DENSITY, 250, 11, "Pa");
    ask(VERRIBLOM_R245FA_MARK_FROM_BELOW, 300, 50000, "mol/dm3");
    ask(VERRIBLOM_R245FA_MARK_FROM_ABOVE, 300, 50000, "mol/dm3");
    ask(VERRIBLOM_R245FA_MARK_FROM_ABOVE, 300, 150000000, "mol/dm3");
    ask(VERRIBLOM_R245FA_MARK_NO_READING, 0, 0, "");
    return 0;
}
