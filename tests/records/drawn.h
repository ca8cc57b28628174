/* Records at random, valid and damaged. */
#ifndef DRAWN_H
#define DRAWN_H

#include "../generator.h"

#include <stddef.h>
#include <stdint.h>

enum { LONGEST_RECORD = 40 };

struct drawn {
    uint8_t bytes[LONGEST_RECORD];
    size_t length;
};

/* One in so many asks for a search in range, which takes a thousand times as long as any other. */
struct drawn drawn_record(struct generator *g, uint64_t one_search_in);

#endif
