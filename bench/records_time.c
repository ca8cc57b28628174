/*
 * Times the C call beside the same work in C and Rust, on records of one kind and on mixes, of each fluid and of both.
 *
 *     records_time               checks that all give the same codes and bytes, then prints records a second
 *     records_time file MARK N   writes N records of that mark, TD, FD, TN or FN
 */
#define _DEFAULT_SOURCE
#include "clock.h"
#include "drawn_records.h"
#include "worked.h"

#include <stddef.h>
#include <stdint.h>
#include <stdio.h>
#include <stdlib.h>
#include <string.h>

typedef uint32_t call(const uint8_t *record, size_t record_len, uint8_t *out, size_t out_len);

call verriblom_answer, c_o2_answer, c_o3_answer, rust_answer;

enum { PASSES = 15 };

static const struct candidate {
    const char *name;
    call *answer;
} candidates[] = {
    { "package", verriblom_answer },
    { "C -O2", c_o2_answer },
    { "C -O3", c_o3_answer },
    { "Rust", rust_answer },
};

enum { CANDIDATES = sizeof candidates / sizeof *candidates };

/* ---- records */

static const struct mix mixes[] = {
    { .name = "TD", .states = { 4096, 0 } },
    { .name = "FD", .states = { 0, 4096 } },
    { .name = "TB", .below = { 128, 0 } },
    { .name = "FB", .below = { 0, 128 } },
    { .name = "TA", .above = { 128, 0 } },
    { .name = "FA", .above = { 0, 128 } },
    { .name = "98 TD, 1 TB, 1 TA", .states = { 980, 0 }, .below = { 10, 0 }, .above = { 10, 0 } },
    { .name = "98 FD, 1 FB, 1 FA", .states = { 0, 980 }, .below = { 0, 10 }, .above = { 0, 10 } },
    { .name = "TD and FD in turns", .states = { 2048, 2048 } },
};

/* ---- the check */

static int same(unsigned n) {
    for (unsigned i = 0; i < n; i++) {
        uint8_t wanted[8] = { 0 };
        uint32_t code = verriblom_answer(records[i], RECORD, wanted, sizeof wanted);
        for (size_t c = 1; c < CANDIDATES; c++) {
            uint8_t got[8] = { 0 };
            if (candidates[c].answer(records[i], RECORD, got, sizeof got) != code || memcmp(got, wanted, 8) != 0) {
                printf("%s differs at record %u\n", candidates[c].name, i);
                return 0;
            }
        }
    }
    return 1;
}

/* A refused record would count as a quick one. */
static int all_answered(unsigned n) {
    for (unsigned i = 0; i < n; i++) {
        uint8_t out[8];
        if (verriblom_answer(records[i], RECORD, out, sizeof out) != 0) {
            printf("record %u is refused, and it is to be timed\n", i);
            return 0;
        }
    }
    return 1;
}

/* ---- how many pressures a record takes */

static double worked_for(const uint8_t *record) {
    const struct fluid *fluid = fluid_numbered(record[0] == letters[0] ? 0 : 1);
    uint8_t out[8];
    double answer;
    verriblom_answer(record, RECORD, out, sizeof out);
    memcpy(&answer, out, sizeof answer);
    switch (record[1]) {
    case 'D':
        return 1;
    case 'B':
        return worked_from_below(answer);
    default:
        return worked_from_above(fluid, answer);
    }
}

static double worked_in_all(unsigned n) {
    double total = 0;
    for (unsigned i = 0; i < n; i++)
        total += worked_for(records[i]);
    return total;
}

/* ---- the clock */

static double pass(call *answer, unsigned n) {
    uint8_t out[8];
    volatile uint32_t codes = 0;
    double begin = seconds();
    for (unsigned i = 0; i < n; i++)
        codes = codes + answer(records[i], RECORD, out, sizeof out);
    return seconds() - begin;
}

static void measure(const struct mix *mix, unsigned n) {
    double least[CANDIDATES];
    for (size_t c = 0; c < CANDIDATES; c++)
        least[c] = pass(candidates[c].answer, n);
    for (int k = 0; k < PASSES; k++)
        for (size_t c = 0; c < CANDIDATES; c++) {
            double took = pass(candidates[c].answer, n);
            if (took < least[c])
                least[c] = took;
        }
    printf("| %s |", mix->name);
    for (size_t c = 0; c < CANDIDATES; c++)
        printf(" %.0f |", n / least[c]);
    double c_least = least[1] < least[2] ? least[1] : least[2], worked = worked_in_all(n);
    printf(" %.2f | %.2f | %.2f | %.2f |\n", least[0] / c_least, least[0] / least[3], worked / n, 1e9 * least[0] / worked);
}

static int measure_all(void) {
    printf("| records | package | C -O2 | C -O3 | Rust | package / better C | package / Rust | pressures a record "
           "| package, ns a pressure |\n");
    printf("|---|---:|---:|---:|---:|---:|---:|---:|---:|\n");
    for (size_t m = 0; m < sizeof mixes / sizeof *mixes; m++) {
        unsigned n = draw(&mixes[m]);
        if (!same(n) || !all_answered(n))
            return 1;
        measure(&mixes[m], n);
    }
    return 0;
}

/* ---- a file for the program */

static int write_file(const char *mark, unsigned long count) {
    uint64_t state = 245;
    for (unsigned long k = 0; k < count; k++) {
        uint8_t record[RECORD];
        put_drawn(record, &state, mark[0] == letters[0] ? 0 : 1, 'D');
        record[1] = (uint8_t)mark[1];
        fwrite(record, 1, sizeof record, stdout);
    }
    return fflush(stdout) != 0;
}

int main(int count, char **words) {
    if (count == 4 && strcmp(words[1], "file") == 0)
        return write_file(words[2], strtoul(words[3], NULL, 10));
    return count == 1 ? measure_all() : 2;
}
