/* What answers should print for the file on standard input, by the independent implementation. */
#include "../independent/bits.h"
#include "../records/record.h"

#include <inttypes.h>
#include <stdio.h>

int main(void)
{
    printf("n mark code bits\n");
    uint8_t record[RECORD_BYTES];
    size_t length;
    for (uint64_t n = 1; (length = fread(record, 1, sizeof record, stdin)) > 0; n++) {
        struct outcome outcome = record_outcome(record, length, NUMBER_BYTES);
        printf("%" PRIu64 " %s %" PRIu64 " ", n, record_mark(record, length), outcome.code);
        if (outcome.code == ANSWERED)
            printf("%016" PRIx64 "\n", bits_of(outcome.value));
        else
            printf("----------------\n");
    }
    return fflush(stdout) != 0;
}
