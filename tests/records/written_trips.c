/* There and back: the layout read by itself, beside what the call writes. */
#include "written_trips.h"

#include "../generator/draw.h"
#include "written_reader.h"

#include <string.h>

enum { MARKS = 65536, MARK_BYTES = 2 };

static bool has_no_reading(const struct writing *writing)
{
    return writing->kind == 'N';
}

bool reads_as_ordered(const struct order *order, const uint8_t *buffer)
{
    const struct writing *wanted = &order->writing;
    bool carried = !has_no_reading(wanted);
    struct writing read;
    return read_record(buffer + order->place, &read) && read.kind == wanted->kind && read.fluid == wanted->fluid
        && read.first == (carried ? wanted->first : 0) && read.second == (carried ? wanted->second : 0);
}

/* One number in two is a pattern at which number code goes wrong, the others are any bytes. */
static void draw_number(struct generator *g, uint8_t *bytes)
{
    if (below(g, 2) == 0)
        put_number(bytes, special(g));
    else
        for (int k = 0; k < NUMBER_BYTES; k++)
            bytes[k] = (uint8_t)any_bits(g);
}

static void draw_record(struct generator *g, size_t kind, size_t fluid, uint8_t record[RECORD_BYTES])
{
    record[0] = (uint8_t)"TF"[fluid];
    record[1] = (uint8_t)"DBAPN"[kind];
    draw_number(g, record + MARK_BYTES);
    draw_number(g, record + MARK_BYTES + NUMBER_BYTES);
}

/* The buffer as it should be with this record at the order's place, whatever the call would be expected to write. */
static void expect_record(const struct order *order, const uint8_t record[RECORD_BYTES], struct result *wanted)
{
    uint8_t *at = wanted->after + order->place;
    wanted->code = ANSWERED;
    memcpy(wanted->after, order->before, order->length);
    memcpy(at, record, RECORD_BYTES);
    if (has_no_reading(&order->writing))
        memset(at + MARK_BYTES, 0, RECORD_BYTES - MARK_BYTES);
}

bool is_rewritten(struct generator *g, const struct written_memory *memory, size_t kind, size_t fluid)
{
    uint8_t record[RECORD_BYTES];
    struct order order;
    struct result wanted, got[ENDS];
    draw_order(g, (struct choice){ kind, fluid, ANYWHERE }, &order);
    draw_record(g, kind, fluid, record);
    if (!read_record(record, &order.writing))
        return false;
    expect_record(&order, record, &wanted);
    return does_as_wanted(memory, &order, &wanted, got);
}

static bool read_mark(unsigned mark, struct writing *read)
{
    const uint8_t record[RECORD_BYTES] = { (uint8_t)(mark / 256), (uint8_t)(mark % 256) };
    return read_record(record, read);
}

static int known_marks(void)
{
    int known = 0;
    struct writing read;
    for (unsigned mark = 0; mark < MARKS; mark++)
        known += read_mark(mark, &read);
    return known;
}

/* Whether the mark that the call writes for a pair is read as that pair. */
static bool mark_is_read(const struct written_memory *memory, uint32_t kind, uint32_t fluid)
{
    const struct order order = { .writing = { .kind = kind, .fluid = fluid }, .length = RECORD_BYTES };
    struct result got;
    struct writing read;
    ask(memory, 0, &order, &got);
    return got.code == ANSWERED && read_mark(got.after[0] * 256u + got.after[1], &read) && read.kind == kind
        && read.fluid == fluid;
}

/* Ten pairs that are read apart have ten marks. */
bool marks_are_those_written(const struct written_memory *memory)
{
    bool read = known_marks() == KNOWN_KINDS * FLUIDS;
    for (size_t kind = 0; kind < KNOWN_KINDS; kind++)
        for (uint32_t fluid = 0; fluid < FLUIDS; fluid++)
            read = mark_is_read(memory, listed_kind(kind), fluid) && read;
    return read;
}
