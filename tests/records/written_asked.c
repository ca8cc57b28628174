/* The call asked to write a record, at both ends of the memory. */
#include "written_asked.h"

#include "../../include/verriblom.h"

#include <string.h>

bool lend_written_memory(struct written_memory *memory)
{
    *memory = (struct written_memory){
        .buffer = guarded_pages(LONGEST_BUFFER),
        .untouchable = untouchable(LONGEST_BUFFER),
    };
    return memory->buffer.end != NULL && memory->untouchable != NULL;
}

static uint32_t call(const struct writing *writing, uint8_t *buffer, size_t length, size_t place)
{
    return verriblom_write(writing->kind, writing->fluid, writing->first, writing->second, buffer, length, place);
}

void ask(const struct written_memory *memory, int end, const struct order *order, struct result *got)
{
    uint8_t *buffer = guarded_at(memory->buffer, end, order->length);
    memcpy(buffer, order->before, order->length);
    got->code = call(&order->writing, buffer, order->length, order->place);
    memcpy(got->after, buffer, order->length);
}

void expect_result(const struct order *order, struct result *wanted)
{
    wanted->code = expected_code(&order->writing, order->length, order->place);
    memcpy(wanted->after, order->before, order->length);
    if (wanted->code == ANSWERED)
        expected_record(&order->writing, wanted->after + order->place);
}

bool does_as_wanted(const struct written_memory *memory, const struct order *order, const struct result *wanted,
                    struct result got[ENDS])
{
    bool same = true;
    for (int end = 0; end < ENDS; end++) {
        ask(memory, end, order, &got[end]);
        same = same && got[end].code == wanted->code && memcmp(got[end].after, wanted->after, order->length) == 0;
    }
    if (!same || wanted->code == ANSWERED)
        return same;
    return refuses_untouched(memory, &order->writing, order->length, order->place, wanted->code);
}

bool refuses_untouched(const struct written_memory *memory, const struct writing *writing, size_t length, size_t place,
                       uint32_t code)
{
    return call(writing, memory->untouchable, length, place) == code;
}

/* The buffer that has these bytes at the place: worked out as a number, as it may begin in memory that is not there. */
static uint8_t *buffer_around(uint8_t *bytes, size_t place)
{
    return (uint8_t *)((uintptr_t)bytes - place);
}

/* Before the call each byte is another than it should be afterwards. */
static bool writes_all(uint8_t *bytes, const struct writing *writing, size_t length, size_t place)
{
    uint8_t wanted[RECORD_BYTES];
    expected_record(writing, wanted);
    for (int k = 0; k < RECORD_BYTES; k++)
        bytes[k] = (uint8_t)~wanted[k];
    return call(writing, buffer_around(bytes, place), length, place) == ANSWERED && memcmp(bytes, wanted, sizeof wanted) == 0;
}

bool writes_its_bytes_alone(const struct written_memory *memory, const struct writing *writing, size_t length, size_t place)
{
    bool same = true;
    for (int end = 0; end < ENDS; end++)
        same = writes_all(guarded_at(memory->buffer, end, RECORD_BYTES), writing, length, place) && same;
    return same;
}
