/* The package's two calls about saturation: the proposer with the output that is lent to it, and the judge. */
#ifndef ASKED_H
#define ASKED_H

#include "../guarded.h"
#include "../independent/pair.h"

#include <stdbool.h>

enum { LONGEST_OUTPUT = 40 };

/* What the proposer is told, T by its bits, and the output before it. */
struct order {
    uint32_t fluid;
    uint64_t T;
    size_t length;
    uint8_t before[LONGEST_OUTPUT];
};

/* What it returns, and the output afterwards. */
struct result {
    uint32_t code;
    uint8_t after[LONGEST_OUTPUT];
};

/* What the judge is told, all numbers by their bits. */
struct trial {
    uint32_t fluid;
    uint64_t T, liquid, vapour;
};

/* The output begins where memory that may not be touched ends, or ends where it begins. */
enum { ENDS = 2 };

struct memory {
    struct guarded output;
    uint8_t *untouchable;
};

/* Whether there is memory to be had. */
bool lend_memory(struct memory *memory);

/* By the independent implementation, which made this proposal of the order. */
void expect_result(const struct order *order, const struct proposal *proposal, struct result *wanted);

/* Asks the proposer at both ends of the memory, and whether it does both times what is wanted. Where that is to refuse it is
 * asked once more, with an output that it may not touch. */
bool does_as_wanted(const struct memory *memory, const struct order *order, const struct result *wanted,
                    struct result got[ENDS]);

/* Whether the proposer returns the code for an output that it may not touch, of whatever length. */
bool refuses_untouched(const struct memory *memory, const struct order *order, size_t length, uint32_t code);

/* Whether the proposer writes the pair into 16 bytes and touches nothing else, where no more of an output of that length is
 * there. */
bool writes_its_bytes_alone(const struct memory *memory, const struct order *order, size_t length, struct pair pair);

uint32_t ask_judge(const struct trial *trial);

/* Whether the package's judge accepts what its proposer has written. */
bool accepts_its_own(const struct order *order, const struct result *got);

#endif
