/* A run of records with the memory that is lent for it, and the call asked about it. */
#ifndef RUNS_ASKED_H
#define RUNS_ASKED_H

#include "../guarded.h"
#include "record.h"

#include <stdbool.h>

/* The longest run, and how much longer than it needs to be a list is at most. */
enum { LONGEST_RUN = 4100, MOST_SPARE = 24 };
enum {
    MOST_RECORD_BYTES = LONGEST_RUN * RECORD_BYTES,
    MOST_OUT_BYTES = LONGEST_RUN * NUMBER_BYTES + MOST_SPARE,
    MOST_CODES = LONGEST_RUN + MOST_SPARE,
};

/* Of records and output in bytes, of codes in places. */
struct lengths {
    size_t records, out, codes;
};

/* The three areas before the call: as long as they are lent, and as long as the call is told that they are. */
struct run {
    struct lengths lent, told;
    uint8_t records[MOST_RECORD_BYTES], out[MOST_OUT_BYTES];
    uint32_t codes[MOST_CODES];
};

/* What the call returns, and its areas afterwards. */
struct reply {
    uint32_t code;
    bool records_kept;
    uint8_t out[MOST_OUT_BYTES];
    uint32_t codes[MOST_CODES];
};

/* The areas end where memory that may not be touched begins, or begin where it ends. */
enum { ENDS = 2 };

struct run_memory {
    struct guarded records, out, codes;
    uint8_t *untouchable;
};

/* Whether there is memory to be had. */
bool lend_run_memory(struct run_memory *memory);

/* By the independent implementation. */
void expect_reply(const struct run *run, struct reply *wanted);

/* By the call for one record, made for each in turn with its own eight bytes; only for a run that is answered. */
void ask_singly(const struct run *run, struct reply *single);

/* Whether two replies are the same, in all of what was lent. */
bool same_reply(const struct run *run, const struct reply *one, const struct reply *other);

/*
 * Asks the call at both ends of the memory, and whether it does both times what is wanted. Where that is nothing at all it is
 * asked once more, with three areas none of which it may touch.
 */
bool does_as_wanted(const struct run_memory *memory, const struct run *run, const struct reply *wanted, struct reply got[ENDS]);

#endif
