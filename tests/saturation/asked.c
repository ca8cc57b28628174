/* The proposer asked at both ends of the memory, and the judge. */
#include "asked.h"

#include "../../include/verriblom.h"
#include "../independent/bits.h"
#include "../independent/refusals.h"
#include "../wire.h"

#include <string.h>

bool lend_memory(struct memory *memory)
{
    *memory = (struct memory){
        .output = guarded_pages(LONGEST_OUTPUT),
        .untouchable = untouchable(LONGEST_OUTPUT),
    };
    return memory->output.end != NULL && memory->untouchable != NULL;
}

static uint32_t call(const struct order *order, uint8_t *output, size_t length)
{
    return verriblom_saturation(order->fluid, number_of(order->T), output, length);
}

static void ask(const struct memory *memory, int end, const struct order *order, struct result *got)
{
    uint8_t *output = guarded_at(memory->output, end, order->length);
    memcpy(output, order->before, order->length);
    got->code = call(order, output, order->length);
    memcpy(got->after, output, order->length);
}

/* The liquid's density and then the vapour's, each with its lowest byte first. */
static void put_pair(uint8_t bytes[PAIR_BYTES], struct pair pair)
{
    put_number(bytes, bits_of(pair.liquid));
    put_number(bytes + PAIR_BYTES / 2, bits_of(pair.vapour));
}

void expect_result(const struct order *order, const struct proposal *proposal, struct result *wanted)
{
    wanted->code = (uint32_t)proposal->code;
    memcpy(wanted->after, order->before, order->length);
    if (proposal->code == ANSWERED)
        put_pair(wanted->after, proposal->pair);
}

bool does_as_wanted(const struct memory *memory, const struct order *order, const struct result *wanted,
                    struct result got[ENDS])
{
    bool same = true;
    for (int end = 0; end < ENDS; end++) {
        ask(memory, end, order, &got[end]);
        same = same && got[end].code == wanted->code && memcmp(got[end].after, wanted->after, order->length) == 0;
    }
    if (!same || wanted->code == ANSWERED)
        return same;
    return refuses_untouched(memory, order, order->length, wanted->code);
}

bool refuses_untouched(const struct memory *memory, const struct order *order, size_t length, uint32_t code)
{
    return call(order, memory->untouchable, length) == code;
}

/* Before the call each byte is another than it should be afterwards. */
static bool writes_all(uint8_t *bytes, const struct order *order, size_t length, struct pair pair)
{
    uint8_t wanted[PAIR_BYTES];
    put_pair(wanted, pair);
    for (int k = 0; k < PAIR_BYTES; k++)
        bytes[k] = (uint8_t)~wanted[k];
    return call(order, bytes, length) == ANSWERED && memcmp(bytes, wanted, sizeof wanted) == 0;
}

bool writes_its_bytes_alone(const struct memory *memory, const struct order *order, size_t length, struct pair pair)
{
    bool same = true;
    for (int end = 0; end < ENDS; end++)
        same = writes_all(guarded_at(memory->output, end, PAIR_BYTES), order, length, pair) && same;
    return same;
}

uint32_t ask_judge(const struct trial *trial)
{
    return verriblom_accept(trial->fluid, number_of(trial->T), number_of(trial->liquid), number_of(trial->vapour));
}

bool accepts_its_own(const struct order *order, const struct result *got)
{
    struct trial trial = {
        .fluid = order->fluid,
        .T = order->T,
        .liquid = get_number(got->after),
        .vapour = get_number(got->after + PAIR_BYTES / 2),
    };
    return ask_judge(&trial) == ANSWERED;
}
