/* What is asked of one probe, and how it went. */
#ifndef ASKED_H
#define ASKED_H

#include "../independent/refusals.h"
#include "../wire.h"

/* How many questions were compared, by the code that was expected. */
struct tally {
    uint64_t of_code[CODES];
};

struct asked {
    const char *probe;
    uint64_t seed, count;
    uint64_t passed, failed;
    struct tally tally;
};

void record(struct asked *asked, bool passed);

bool same(struct answer a, struct answer b);
void show_answer(const char *whose, struct answer answer);

void add_code(struct tally *tally, uint64_t code);
void add_tally(struct tally *sum, const struct tally *tally);
uint64_t questions_in(const struct tally *tally);
void show_tally(const struct tally *tally);

/* count random questions, each with one of the numbers taken at random. */
void compare_stream(struct asked *asked, const char *name, const uint64_t *numbers,
                    size_t numbers_count);

/* A call of one number does not look at the second. */
void compare_second(struct asked *asked, uint64_t number);

/* The call and, where it asks one, the fluid. */
enum { NAME_ROOM = 64 };
void name_number(char name[NAME_ROOM], uint64_t number);

/* Inputs of 0 to 49 bytes, and one that comes a few bytes at a time. */
void compare_pieces(struct asked *asked);

#endif
