/* A run of records, answered one after the other. */
#include "runs_expected.h"

#include "../independent/bits.h"
#include "../wire.h"
#include "record.h"

/* M-101's number, written here once more and not taken from the header. */
enum { MOST_ANSWERED = 4096 };

/* Rounded up without a sum, which a great length would carry over the end. */
size_t records_in(size_t records_len)
{
    return records_len / RECORD_BYTES + (records_len % RECORD_BYTES != 0);
}

size_t record_length(size_t records_len, size_t k)
{
    size_t left = records_len - k * RECORD_BYTES;
    return left < RECORD_BYTES ? left : RECORD_BYTES;
}

/* 7 before 18. */
static uint32_t run_refusal(size_t count, size_t out_len, size_t codes_len)
{
    if (out_len / NUMBER_BYTES < count || codes_len < count)
        return REFUSED_SHORT_LIST;
    return count > MOST_ANSWERED ? REFUSED_TOO_MANY_RECORDS : ANSWERED;
}

uint32_t expected_answers(const uint8_t *records, size_t records_len, uint8_t *out, size_t out_len,
                          uint32_t *codes, size_t codes_len)
{
    size_t count = records_in(records_len);
    uint32_t refusal = run_refusal(count, out_len, codes_len);
    if (refusal != ANSWERED)
        return refusal;
    for (size_t k = 0; k < count; k++) {
        struct outcome outcome = record_outcome(records + k * RECORD_BYTES, record_length(records_len, k), NUMBER_BYTES);
        codes[k] = (uint32_t)outcome.code;
        if (outcome.code == ANSWERED)
            put_number(out + k * NUMBER_BYTES, bits_of(outcome.value));
    }
    return ANSWERED;
}
