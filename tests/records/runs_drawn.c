/* Runs of records at random: most of them short, some of the most records that a run may have, and about so many. */
#include "runs_drawn.h"

#include "../generator/draw.h"
#include "drawn.h"
#include "runs_expected.h"

#include <string.h>

const char *const shape_names[SHAPES] = {
    [NO_RECORDS] = "no records",
    [WHOLE] = "whole records",
    [WITH_PIECE] = "records and a piece",
    [ONE_BELOW_MOST] = "4,095 records",
    [MOST] = "4,096 records",
    [MOST_WITH_PIECE] = "4,095 records and a piece",
    [ONE_ABOVE_MOST] = "4,097 records",
    [ABOVE_BY_PIECE] = "4,096 records and a piece",
    [FURTHER_ABOVE] = "4,098 to 4,100 records",
};

const char *const room_names[OUT_ROOMS] = {
    [NO_ROOM] = "of nothing",
    [ANY_LESS] = "too short",
    [ONE_LESS] = "one too short",
    [EXACT] = "as needed",
    [ONE_MORE] = "one longer",
    [SOME_MORE] = "longer",
    [NUMBER_LESS] = "a number too short",
};

enum { SHORT_RUN = 40, ONE_LONG_IN = 300 };

bool is_possible(struct run_kind kind)
{
    bool out_short = kind.out < EXACT || kind.out == NUMBER_LESS;
    return kind.shape != NO_RECORDS || (!out_short && kind.codes >= EXACT);
}

static enum shape any_shape(struct generator *g)
{
    if (below(g, ONE_LONG_IN) == 0)
        return ONE_BELOW_MOST + (enum shape)below(g, SHAPES - ONE_BELOW_MOST);
    if (below(g, 12) == 0)
        return NO_RECORDS;
    return below(g, 2) == 0 ? WHOLE : WITH_PIECE;
}

static enum room any_room(struct generator *g, enum room rooms)
{
    return below(g, 4) == 0 ? (enum room)below(g, rooms) : EXACT + (enum room)below(g, 3);
}

struct run_kind any_kind(struct generator *g)
{
    struct run_kind kind;
    do {
        kind.shape = any_shape(g);
        kind.out = any_room(g, OUT_ROOMS);
        kind.codes = any_room(g, CODE_ROOMS);
    } while (!is_possible(kind));
    return kind;
}

static size_t any_piece(struct generator *g)
{
    return 1 + below(g, RECORD_BYTES - 1);
}

static size_t bytes_of(size_t records)
{
    return records * RECORD_BYTES;
}

/* Of 1 to 4,095 records, most often of a few. */
static size_t any_count(struct generator *g)
{
    return 1 + below(g, below(g, ONE_LONG_IN) == 0 ? 4095 : SHORT_RUN);
}

/* 4,098 to 4,100 records, the last of them as often a piece as not. */
static size_t further_above(struct generator *g)
{
    size_t before_last = bytes_of(4097 + below(g, 3));
    return before_last + (below(g, 2) == 0 ? any_piece(g) : RECORD_BYTES);
}

static size_t any_bytes(struct generator *g, enum shape shape)
{
    switch (shape) {
    case WHOLE:
        return bytes_of(any_count(g));
    case WITH_PIECE:
        return bytes_of(any_count(g) - 1) + any_piece(g);
    case ONE_BELOW_MOST:
        return bytes_of(4095);
    case MOST:
        return bytes_of(4096);
    case MOST_WITH_PIECE:
        return bytes_of(4095) + any_piece(g);
    case ONE_ABOVE_MOST:
        return bytes_of(4097);
    case ABOVE_BY_PIECE:
        return bytes_of(4096) + any_piece(g);
    case FURTHER_ABOVE:
        return further_above(g);
    default:
        return 0;
    }
}

/* A long run has hardly a search, as each takes long. */
void draw_run(struct generator *g, size_t length, struct run *run)
{
    size_t count = records_in(length);
    uint64_t one_search_in = count <= SHORT_RUN ? 300 : 100000;
    run->lent.records = run->told.records = length;
    for (size_t k = 0; k < count; k++) {
        struct drawn drawn = drawn_record(g, one_search_in);
        memcpy(run->records + bytes_of(k), drawn.bytes, record_length(length, k));
    }
    for (size_t k = 0; k < count * NUMBER_BYTES + MOST_SPARE; k++)
        run->out[k] = (uint8_t)any_bits(g);
    for (size_t k = 0; k < count + MOST_SPARE; k++)
        run->codes[k] = (uint32_t)any_bits(g);
}

void draw_run_of(struct generator *g, enum shape shape, struct run *run)
{
    draw_run(g, any_bytes(g, shape), run);
}

void lend_lists(struct run *run, size_t out, size_t codes)
{
    run->lent.out = run->told.out = out;
    run->lent.codes = run->told.codes = codes;
}

static size_t any_length(struct generator *g, enum room room, size_t needed)
{
    switch (room) {
    case ANY_LESS:
        return below(g, needed);
    case ONE_LESS:
        return needed - 1;
    case EXACT:
        return needed;
    case ONE_MORE:
        return needed + 1;
    case SOME_MORE:
        return needed + 2 + below(g, MOST_SPARE - 1);
    case NUMBER_LESS:
        return needed - NUMBER_BYTES;
    default:
        return 0;
    }
}

void draw_rooms(struct generator *g, struct run_kind kind, struct run *run)
{
    size_t count = records_in(run->lent.records);
    size_t out = any_length(g, kind.out, count * NUMBER_BYTES);
    lend_lists(run, out, any_length(g, kind.codes, count));
}
