/* Runs of records at random, and the lists that are lent for them. */
#ifndef RUNS_DRAWN_H
#define RUNS_DRAWN_H

#include "../generator.h"
#include "runs_asked.h"

/* How many records a run has, and whether it ends with a piece of one. */
enum shape {
    NO_RECORDS,
    WHOLE,
    WITH_PIECE,
    ONE_BELOW_MOST,
    MOST,
    MOST_WITH_PIECE,
    ONE_ABOVE_MOST,
    ABOVE_BY_PIECE,
    FURTHER_ABOVE,
    SHAPES,
};

extern const char *const shape_names[SHAPES];

/* How long a list is, by what the run needs; the last is for outputs only. */
enum room {
    NO_ROOM,
    ANY_LESS,
    ONE_LESS,
    EXACT,
    ONE_MORE,
    SOME_MORE,
    CODE_ROOMS,
    NUMBER_LESS = CODE_ROOMS,
    OUT_ROOMS,
};

extern const char *const room_names[OUT_ROOMS];

struct run_kind {
    enum shape shape;
    enum room out, codes;
};

/* No list is too short for no records. */
bool is_possible(struct run_kind kind);

/* Most runs are short, and most lists long enough. */
struct run_kind any_kind(struct generator *g);

/* Records in so many bytes, the last of them a piece where they are not whole, and random bytes in the longest lists that such
 * a run can get. */
void draw_run(struct generator *g, size_t length, struct run *run);
void draw_run_of(struct generator *g, enum shape shape, struct run *run);

/* So many bytes and places of the lists are lent, and told. */
void lend_lists(struct run *run, size_t out, size_t codes);
void draw_rooms(struct generator *g, struct run_kind kind, struct run *run);

#endif
