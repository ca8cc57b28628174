/*
 * Writes records of both fluids by Verriblom's C call, one after the other into one buffer, and the
 * buffer into the file states.rec, which the program answers reads.
 */
#include "verriblom.h"

#include <inttypes.h>
#include <stdbool.h>
#include <stdio.h>
#include <string.h>

struct state {
    uint32_t kind, fluid;
    double first, second;
};

/* The one without a reading is handed numbers that it does not carry. */
static const struct state states[] = {
    { VERRIBLOM_KIND_TEMPERATURE_DENSITY, VERRIBLOM_R245CA, 250, 11.3 },
    { VERRIBLOM_KIND_FROM_BELOW, VERRIBLOM_R245CA, 300, 50000 },
    { VERRIBLOM_KIND_FROM_ABOVE, VERRIBLOM_R245CA, 300, 50000 },
    { VERRIBLOM_KIND_NO_READING, VERRIBLOM_R245CA, 300, 50000 },
    { VERRIBLOM_KIND_TEMPERATURE_DENSITY, VERRIBLOM_R245FA, 250, 11 },
    { VERRIBLOM_KIND_FROM_BELOW, VERRIBLOM_R245FA, 300, 50000 },
    { VERRIBLOM_KIND_FROM_ABOVE, VERRIBLOM_R245FA, 300, 150000000 },
    { VERRIBLOM_KIND_NO_SIDE, VERRIBLOM_R245FA, 300, 50000 },
    { VERRIBLOM_KIND_FROM_ABOVE, VERRIBLOM_R245CA, 500, 50000 },
};

enum { STATES = sizeof states / sizeof *states, BYTES = STATES * VERRIBLOM_RECORD_BYTES };

static const struct state of_no_fluid = { VERRIBLOM_KIND_TEMPERATURE_DENSITY, 2, 250, 11.3 };

static uint64_t bits_of(double number)
{
    uint64_t bits;
    memcpy(&bits, &number, sizeof bits);
    return bits;
}

static void print_record(const uint8_t *record)
{
    for (int k = 0; k < VERRIBLOM_RECORD_BYTES; k++)
        printf(" %02x", record[k]);
    printf("\n");
}

/* Whether the record is written; where it is refused the buffer stays as it was. */
static bool put(uint8_t buffer[BYTES], size_t place, const struct state *state)
{
    uint64_t first = bits_of(state->first), second = bits_of(state->second);
    uint32_t code = verriblom_write(state->kind, state->fluid, first, second, buffer, BYTES, place);
    printf("%c %" PRIu32 " %.10g %.10g at %zu:", (int)state->kind, state->fluid, state->first,
           state->second, place);
    if (code == VERRIBLOM_ANSWERED)
        print_record(buffer + place);
    else
        printf(" refused, %" PRIu32 "\n", code);
    return code == VERRIBLOM_ANSWERED;
}

static bool put_all(uint8_t buffer[BYTES])
{
    for (size_t k = 0; k < STATES; k++)
        if (!put(buffer, k * VERRIBLOM_RECORD_BYTES, &states[k]))
            return false;
    return true;
}

/* The last bytes may go out only when the file is closed. */
static bool save(const char *name, const uint8_t buffer[BYTES])
{
    FILE *file = fopen(name, "wb");
    if (file == NULL)
        return false;
    bool written = fwrite(buffer, 1, BYTES, file) == BYTES;
    return fclose(file) == 0 && written;
}

int main(void)
{
    uint8_t buffer[BYTES];
    if (!put_all(buffer)) {
        fprintf(stderr, "a record is refused, and no file is written\n");
        return 1;
    }
    /* Both are refused: there is no such fluid, and no room after the last record. */
    put(buffer, 0, &of_no_fluid);
    put(buffer, BYTES, &states[0]);
    if (!save("states.rec", buffer)) {
        perror("states.rec");
        return 1;
    }
    printf("states.rec: %d records\n", STATES);
    return 0;
}
