/* One question of the probe, answered by the independent implementation. */
#ifndef QUESTIONS_H
#define QUESTIONS_H

#include "fluid.h"

#include <stdbool.h>
#include <stddef.h>
#include <stdint.h>

struct answer {
    uint64_t code;
    uint64_t bits;
};

/* The bits beside a refusal. */
#define NO_BITS UINT64_MAX

enum family { ELEMENTARY, PROPERTY, ESTIMATE, PLAIN_SEARCH, QUICK_SEARCH, PLAIN_WORD };

/* A question's number n asks the fluid n / 100 for the call n mod 100. */
enum { FLUID_STRIDE = 100 };

/* A call of the probe, by the number that it has with fluid 0. */
struct call {
    uint64_t number;
    const char *name;
    enum family family;
    int which;
};

extern const struct call known_calls[];
extern const size_t known_calls_count;

/* exp, ln and root are of no fluid: only 1, 2 and 3 themselves ask them. */
bool asks_a_fluid(const struct call *call);
bool takes_one_number(const struct call *call);

/* The call that a question's number asks, of whatever fluid; NULL where it is none. */
const struct call *known_call(uint64_t number);

/* The fluid that a question's number asks; NULL where there is none of that number. */
const struct fluid *fluid_asked(uint64_t number);

/* Every number that asks a call of a fluid that there is. */
enum { NUMBERS_ROOM = 64 };

struct numbers {
    size_t count;
    uint64_t number[NUMBERS_ROOM];
};

struct numbers known_numbers(void);
bool is_known_number(uint64_t number);

/* As the probe answers: 14 where the number is no call, then 17 where the fluid is unknown. */
struct answer answer_question(uint64_t number, uint64_t a, uint64_t b);

#endif
