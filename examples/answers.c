/* Asks Verriblom a run of records of both fluids by one C call and prints what it answers. */
#include "numbers.h"
#include "verriblom.h"

#include <inttypes.h>
#include <stdio.h>

struct question {
    const char *mark;
    double first, second;
    const char *unit;
};

static const struct question questions[] = {
    { VERRIBLOM_MARK_TEMPERATURE_DENSITY, 250, 11.3, "Pa" },
    { VERRIBLOM_MARK_FROM_ABOVE, 300, 50000, "mol/dm3" },
    { VERRIBLOM_MARK_FROM_ABOVE, 500, 50000, "mol/dm3" },
    { VERRIBLOM_R245FA_MARK_TEMPERATURE_DENSITY, 250, 11, "Pa" },
    { VERRIBLOM_R245FA_MARK_NO_READING, 0, 0, "" },
    { VERRIBLOM_R245FA_MARK_FROM_BELOW, 300, 50000, "mol/dm3" },
    { VERRIBLOM_R245FA_MARK_TEMPERATURE_DENSITY, 300, 1, "Pa" },
};

/* The last record is cut short: it lacks the number at its end. */
enum { QUESTIONS = sizeof questions / sizeof *questions, CUT = VERRIBLOM_NUMBER_BYTES };

static void print_answer(const struct question *asked, uint32_t code, const uint8_t *out)
{
    printf("%s %.10g %.10g: ", asked->mark, asked->first, asked->second);
    if (code == VERRIBLOM_ANSWERED)
        printf("%.6f %s\n", number_at(out), asked->unit);
    else
        printf("refused, %" PRIu32 "\n", code);
}

int main(void)
{
    uint8_t records[QUESTIONS * VERRIBLOM_RECORD_BYTES], out[QUESTIONS * VERRIBLOM_NUMBER_BYTES];
    uint32_t codes[QUESTIONS];
    for (int k = 0; k < QUESTIONS; k++)
        put_record(records + k * VERRIBLOM_RECORD_BYTES, questions[k].mark, questions[k].first, questions[k].second);
    uint32_t code =
        verriblom_answers(records, sizeof records - CUT, out, sizeof out, codes, QUESTIONS);
    if (code != VERRIBLOM_ANSWERED) {
        fprintf(stderr, "the run is refused, %" PRIu32 "\n", code);
        return 1;
    }
    for (int k = 0; k < QUESTIONS; k++)
        print_answer(&questions[k], codes[k], out + k * VERRIBLOM_NUMBER_BYTES);
    return 0;
}
