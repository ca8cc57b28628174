/* Questions of a temperature to the three saturation estimates of each fluid. */
#include "sheet.h"

enum { SPREAD = 30, APPROACHES = 12 };

/* Ever closer to Tc, from 10 K below it. */
static void ask_approaching_critical(struct sheet *sheet, uint64_t number, double Tc)
{
    double distance = 10;
    for (int i = 0; i < APPROACHES; i++) {
        ask_one(sheet, number, Tc - distance);
        distance /= 16;
    }
}

/* The limits of every fluid: what one permits another may not. */
static void ask_limits(struct sheet *sheet, uint64_t number)
{
    for (uint64_t i = 0; i < FLUIDS; i++) {
        const struct fluid *fluid = fluid_numbered(i);
        ask_about(sheet, number, fluid->T.least);
        ask_about(sheet, number, fluid->Tc);
        ask_about(sheet, number, fluid->T.greatest);
    }
}

static void ask_estimate(struct sheet *sheet, uint64_t number, const struct fluid *fluid)
{
    static const double picked[] = {
        200, 225, 250, 273.15, 300, 325, 350, 375, 400, 425, 435, 447, 500, -300,
    };
    double above_critical = (fluid->Tc + fluid->T.greatest) / 2;
    ask_each(sheet, number, picked, sizeof picked / sizeof *picked);
    ask_one(sheet, number, fluid->T.least - 1);
    ask_one(sheet, number, fluid->T.greatest + 1);
    ask_limits(sheet, number);
    ask_approaching_critical(sheet, number, fluid->Tc);
    ask_specials(sheet, number);
    ask_with_seconds(sheet, number, 300);
    ask_with_seconds(sheet, number, above_critical);
    ask_with_seconds(sheet, number, 500);
    ask_uniform(sheet, number, fluid->T.least, fluid->Tc, SPREAD);
}

void estimate_questions(struct sheet *sheet)
{
    struct numbers all = known_numbers();
    for (size_t i = 0; i < all.count; i++)
        if (known_call(all.number[i])->family == ESTIMATE)
            ask_estimate(sheet, all.number[i], fluid_asked(all.number[i]));
}
