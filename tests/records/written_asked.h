/* A record to be written with the buffer that is lent for it, and the call asked to write it. */
#ifndef WRITTEN_ASKED_H
#define WRITTEN_ASKED_H

#include "../guarded.h"
#include "written_expected.h"

#include <stdbool.h>

enum { LONGEST_BUFFER = 60 };

/* What the call is told, and the buffer before it. */
struct order {
    struct writing writing;
    size_t length, place;
    uint8_t before[LONGEST_BUFFER];
};

/* What the call returns, and the buffer afterwards. */
struct result {
    uint32_t code;
    uint8_t after[LONGEST_BUFFER];
};

/* The buffer begins where memory that may not be touched ends, or ends where it begins. */
enum { ENDS = 2 };

struct written_memory {
    struct guarded buffer;
    uint8_t *untouchable;
};

/* Whether there is memory to be had. */
bool lend_written_memory(struct written_memory *memory);

/* By the independent implementation. */
void expect_result(const struct order *order, struct result *wanted);

/* Asks the call at one end of the memory. */
void ask(const struct written_memory *memory, int end, const struct order *order, struct result *got);

/* Asks the call at both ends of the memory, and whether it does both times what is wanted. Where that is to refuse it is asked
 * once more, with a buffer that it may not touch. */
bool does_as_wanted(const struct written_memory *memory, const struct order *order, const struct result *wanted,
                    struct result got[ENDS]);

/* Whether the call returns the code for a buffer that it may not touch, of whatever length. */
bool refuses_untouched(const struct written_memory *memory, const struct writing *writing, size_t length, size_t place,
                       uint32_t code);

/* Whether the call writes its 18 bytes and touches nothing else, where no more of a buffer of that length is there. */
bool writes_its_bytes_alone(const struct written_memory *memory, const struct writing *writing, size_t length, size_t place);

#endif
