/* One check is one line and one count. */
#ifndef CHECK_H
#define CHECK_H

#include "../independent/refusals.h"

#include <stdbool.h>
#include <stdint.h>

struct count {
    unsigned passed, failed;
};

extern struct count counted;

__attribute__((format(printf, 2, 3))) void check(bool holds, const char *format, ...);

bool same_bits(double a, double b);
bool close_to(double a, double b, double relative);

/* Equal when written with as many decimals as are printed. */
bool prints_as(const char *printed, double value);

/* A refusal carries this code and no number. */
bool refused_with(uint64_t code, struct outcome outcome);
bool answered_with(double value, struct outcome outcome);
bool is_answered(struct outcome outcome);

void check_arithmetic(void);
void check_equation(void);
void check_tables(void);
void check_stability(void);
void check_search(void);
void check_density(void);
void check_pairs(void);
void check_questions(void);
void check_generator(void);

#endif
