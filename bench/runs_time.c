/*
 * Times the C call for runs of records beside one call for each record, and beside the same run in C and Rust.
 *
 *     runs_time             checks that all give the same codes and bytes, then prints records a second
 *     runs_time file NAME   writes the records of the list of that name
 */
#define _DEFAULT_SOURCE
#include "clock.h"
#include "drawn_records.h"

#include <stddef.h>
#include <stdint.h>
#include <stdio.h>
#include <string.h>

typedef uint32_t run_call(const uint8_t *records, size_t records_len, uint8_t *out, size_t out_len, uint32_t *codes,
                          size_t codes_len);

uint32_t verriblom_answer(const uint8_t *record, size_t record_len, uint8_t *out, size_t out_len);
run_call verriblom_answers, c_o2_answers, c_o3_answers, rust_answers;

enum { NUMBER = 8, PASSES = 16 };

/* What a caller does who asks for one record at a time. */
static uint32_t singly(const uint8_t *run, size_t run_len, uint8_t *out, size_t out_len, uint32_t *codes,
                       size_t codes_len) {
    (void)out_len, (void)codes_len;
    for (size_t k = 0; k < run_len / RECORD; k++)
        codes[k] = verriblom_answer(run + RECORD * k, RECORD, out + NUMBER * k, NUMBER);
    return 0;
}

enum { SINGLY, PACKAGE, C_O2, C_O3, RUST, CANDIDATES };

static const struct candidate {
    const char *name;
    run_call *answers;
} candidates[CANDIDATES] = {
    [SINGLY] = { "singly", singly },
    [PACKAGE] = { "as a run", verriblom_answers },
    [C_O2] = { "C -O2", c_o2_answers },
    [C_O3] = { "C -O3", c_o3_answers },
    [RUST] = { "Rust", rust_answers },
};

static const struct mix lists[] = {
    { .name = "TD", .states = { 4096, 0 } },
    { .name = "98 TD, 1 TB, 1 TA", .states = { 980, 0 }, .below = { 10, 0 }, .above = { 10, 0 } },
    { .name = "TN", .unread = { 4096, 0 } },
};

enum { LISTS = sizeof lists / sizeof *lists };

/* ---- the check */

/* All that a run's call may write. */
struct written {
    uint8_t out[NUMBER * MOST];
    uint32_t codes[MOST];
};

static uint32_t ask(run_call *answers, unsigned n, struct written *written) {
    return answers(*records, RECORD * n, written->out, NUMBER * n, written->codes, n);
}

static int same(unsigned n) {
    static struct written wanted, got;
    memset(&wanted, 0xa5, sizeof wanted);
    ask(singly, n, &wanted);
    for (int c = 0; c < CANDIDATES; c++) {
        memset(&got, 0xa5, sizeof got);
        if (ask(candidates[c].answers, n, &got) != 0 || memcmp(&got, &wanted, sizeof got) != 0) {
            printf("%s differs in a run of %u records\n", candidates[c].name, n);
            return 0;
        }
    }
    return 1;
}

/* A refused record would count as a quick one, but for one without a reading, which is refused with 1. */
static int all_as_meant(unsigned n) {
    static struct written written;
    ask(verriblom_answers, n, &written);
    for (unsigned i = 0; i < n; i++)
        if (written.codes[i] != (records[i][1] == 'N')) {
            printf("record %u has the code %u, and it is to be timed\n", i, (unsigned)written.codes[i]);
            return 0;
        }
    return 1;
}

/* ---- the times */

static double pass(run_call *answers, unsigned n) {
    static struct written written;
    double begin = seconds();
    ask(answers, n, &written);
    return seconds() - begin;
}

static void least_times(unsigned n, double least[CANDIDATES]) {
    for (int k = 0; k < PASSES; k++)
        for (int c = 0; c < CANDIDATES; c++) {
            double took = pass(candidates[c].answers, n);
            if (k == 0 || took < least[c])
                least[c] = took;
        }
}

static void print_row(const char *name, unsigned n, const double least[CANDIDATES]) {
    double better_c = least[C_O2] < least[C_O3] ? least[C_O2] : least[C_O3];
    printf("| %s | %.0f | %.0f | %.2f |", name, n / least[SINGLY], n / least[PACKAGE], least[PACKAGE] / least[SINGLY]);
    printf(" %.0f | %.0f | %.0f |", n / least[C_O2], n / least[C_O3], n / least[RUST]);
    printf(" %.2f | %.2f |\n", least[PACKAGE] / better_c, least[PACKAGE] / least[RUST]);
}

static int measure_all(void) {
    printf("| records | singly | as a run | run / singly | run in C -O2 | C -O3 | Rust | package / better C "
           "| package / Rust |\n");
    printf("|---|---:|---:|---:|---:|---:|---:|---:|---:|\n");
    for (size_t k = 0; k < LISTS; k++) {
        unsigned n = draw(&lists[k]);
        double least[CANDIDATES];
        if (!same(n) || !all_as_meant(n))
            return 1;
        least_times(n, least);
        print_row(lists[k].name, n, least);
    }
    return 0;
}

/* ---- a file for another language */

static int write_file(const char *name) {
    for (size_t k = 0; k < LISTS; k++)
        if (strcmp(name, lists[k].name) == 0)
            return fwrite(records, RECORD, draw(&lists[k]), stdout) == 0 || fflush(stdout) != 0;
    return 2;
}

int main(int count, char **words) {
    if (count == 3 && strcmp(words[1], "file") == 0)
        return write_file(words[2]);
    return count == 1 ? measure_all() : 2;
}
