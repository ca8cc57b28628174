/* Asks Verriblom for saturation pairs of both fluids and prints them, and whether it accepts pairs that are proposed. */
#include "numbers.h"
#include "verriblom.h"

#include <inttypes.h>
#include <stdio.h>

struct question {
    const char *fluid;
    uint32_t number;
    double t;
};

static const struct question questions[] = {
    { "R-245ca", VERRIBLOM_R245CA, 300 },
    { "R-245ca", VERRIBLOM_R245CA, 440 },
    { "R-245ca", VERRIBLOM_R245CA, 450 },
    { "R-245fa", VERRIBLOM_R245FA, 250 },
    { "R-245fa", VERRIBLOM_R245FA, 427.01 },
    { "R-245fa", VERRIBLOM_R245FA, 100 },
    { "fluid 2", 2, 300 },
};

enum { QUESTIONS = sizeof questions / sizeof *questions };

static void print_verdict(const char *what, uint32_t code)
{
    if (code == VERRIBLOM_ANSWERED)
        printf("  %s: accepted\n", what);
    else
        printf("  %s: refused, %" PRIu32 "\n", what, code);
}

/* The pair itself, and two that are none: its densities exchanged, and its vapour one part in a million off. */
static void judge(const struct question *asked, double liquid, double vapour)
{
    print_verdict("as it is", verriblom_accept(asked->number, asked->t, liquid, vapour));
    print_verdict("exchanged", verriblom_accept(asked->number, asked->t, vapour, liquid));
    print_verdict("vapour off", verriblom_accept(asked->number, asked->t, liquid, vapour * 1.000001));
}

static void ask(const struct question *asked)
{
    uint8_t out[VERRIBLOM_PAIR_BYTES];
    uint32_t code = verriblom_saturation(asked->number, asked->t, out, sizeof out);
    printf("%s %.10g K: ", asked->fluid, asked->t);
    if (code != VERRIBLOM_ANSWERED) {
        printf("refused, %" PRIu32 "\n", code);
        return;
    }
    double liquid = number_at(out), vapour = number_at(out + VERRIBLOM_NUMBER_BYTES);
    printf("liquid %.9f, vapour %.9f mol/dm3\n", liquid, vapour);
    judge(asked, liquid, vapour);
}

int main(void)
{
    for (int k = 0; k < QUESTIONS; k++)
        ask(&questions[k]);
    return 0;
}
