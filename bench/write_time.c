/*
 * Times the C call that writes a record beside the same work in C and Rust: checks that all give the same codes and bytes, then
 * prints nanoseconds a record.
 */
#define _DEFAULT_SOURCE
#include "../tests/splitmix.h"
#include "clock.h"

#include <stddef.h>
#include <stdint.h>
#include <stdio.h>
#include <string.h>

typedef uint32_t write_call(uint32_t kind, uint32_t fluid, uint64_t first, uint64_t second, uint8_t *buffer,
                            size_t buffer_len, size_t place);

write_call verriblom_write, c_o2_write, c_o3_write, rust_write;

/* So many passes, each of some microseconds, that other work on the machine seldom meets them all. */
enum { RECORD = 18, ORDERS = 4096, PASSES = 1000 };

enum { PACKAGE, C_O2, C_O3, RUST, CANDIDATES };

static const struct candidate {
    const char *name;
    write_call *write;
} candidates[CANDIDATES] = {
    [PACKAGE] = { "package", verriblom_write },
    [C_O2] = { "C -O2", c_o2_write },
    [C_O3] = { "C -O3", c_o3_write },
    [RUST] = { "Rust", rust_write },
};

/* A record to be written. */
struct order {
    uint32_t kind, fluid;
    uint64_t first, second;
};

static struct order orders[ORDERS];

/* ---- the check of single calls */

enum { ROOM = 40 };

static const uint32_t kinds[] = {
    'D', 'B', 'A', 'P', 'N', 0, '@', 'C', 'E', 'M', 'O', 'Q', 'T', 'd', 'n', 256 + 'D', 65536 + 'N', UINT32_MAX,
};

static const uint32_t fluids[] = { 0, 1, 2, 'T', 256, 65537, UINT32_MAX };

static const uint64_t words[] = { 0, 0x8877665544332211, 0x7ff4000000000001, UINT64_MAX };

static const size_t lengths[] = { 0, 1, RECORD - 1, RECORD, RECORD + 1, 2 * RECORD, ROOM };

static const size_t places[] = {
    0, 1, RECORD - 1, RECORD, RECORD + 1, ROOM - RECORD, ROOM - RECORD + 1, ROOM - 1, ROOM,
    SIZE_MAX - RECORD, SIZE_MAX - RECORD + 1, SIZE_MAX, /* 18 more are just below 2^64, just 2^64, and beyond */
};

#define COUNT_OF(list) (sizeof(list) / sizeof *(list))

static uint32_t ask(write_call *write, const struct order *order, uint8_t *buffer, size_t length, size_t place) {
    return write(order->kind, order->fluid, order->first, order->second, buffer, length, place);
}

static int same_call(const struct order *order, size_t length, size_t place) {
    uint8_t wanted[ROOM], got[ROOM];
    memset(wanted, 0xa5, sizeof wanted);
    uint32_t code = ask(verriblom_write, order, wanted, length, place);
    for (int c = 0; c < CANDIDATES; c++) {
        memset(got, 0xa5, sizeof got);
        if (ask(candidates[c].write, order, got, length, place) != code || memcmp(got, wanted, sizeof got) != 0) {
            printf("%s differs for kind %u, fluid %u, place %zu of %zu bytes\n", candidates[c].name,
                   (unsigned)order->kind, (unsigned)order->fluid, place, length);
            return 0;
        }
    }
    return 1;
}

static int same_everywhere(const struct order *order) {
    for (size_t i = 0; i < COUNT_OF(lengths); i++)
        for (size_t k = 0; k < COUNT_OF(places); k++)
            if (!same_call(order, lengths[i], places[k]))
                return 0;
    return 1;
}

static int same_words(uint32_t kind, uint32_t fluid) {
    for (size_t i = 0; i < COUNT_OF(words); i++)
        for (size_t k = 0; k < COUNT_OF(words); k++)
            if (!same_everywhere(&(struct order){ kind, fluid, words[i], words[k] }))
                return 0;
    return 1;
}

static int same_calls(void) {
    for (size_t i = 0; i < COUNT_OF(kinds); i++)
        for (size_t k = 0; k < COUNT_OF(fluids); k++)
            if (!same_words(kinds[i], fluids[k]))
                return 0;
    return 1;
}

/* ---- what is timed */

/* The kinds and the fluids in turns, or drawn, so that no processor foresees them. */
static const struct list {
    const char *name, *kinds;
    int drawn;
    uint32_t code;
} lists[] = {
    { "D, B, A, P of both fluids, in turns", "DBAP", 0, 0 },
    { "D, B, A, P of both fluids, drawn", "DBAP", 1, 0 },
    { "N of both fluids, in turns", "N", 0, 0 },
    { "of an unknown kind, refused", "C", 0, 14 },
};

static void draw(const struct list *list) {
    uint64_t state = 245;
    for (unsigned k = 0; k < ORDERS; k++) {
        uint64_t choice = list->drawn ? splitmix(&state) >> 32 : k;
        orders[k].fluid = choice % 2;
        orders[k].kind = (uint8_t)list->kinds[choice / 2 % strlen(list->kinds)];
        orders[k].first = splitmix(&state);
        orders[k].second = splitmix(&state);
    }
}

/* All orders, one after the other: the sum of the codes. */
static uint32_t write_all(write_call *write, uint8_t buffer[RECORD * ORDERS]) {
    uint32_t codes = 0;
    for (size_t k = 0; k < ORDERS; k++)
        codes += ask(write, &orders[k], buffer, RECORD * ORDERS, RECORD * k);
    return codes;
}

/* A refused record would count as a quick one. */
static int same_list(const struct list *list) {
    static uint8_t wanted[RECORD * ORDERS], got[RECORD * ORDERS];
    memset(wanted, 0xa5, sizeof wanted);
    write_all(verriblom_write, wanted);
    for (int c = 0; c < CANDIDATES; c++) {
        memset(got, 0xa5, sizeof got);
        if (write_all(candidates[c].write, got) != ORDERS * list->code || memcmp(got, wanted, sizeof got) != 0) {
            printf("%s differs, or has another code than %u: %s\n", candidates[c].name, (unsigned)list->code, list->name);
            return 0;
        }
    }
    return 1;
}

/* ---- the clock */

static double pass(write_call *write) {
    static uint8_t buffer[RECORD * ORDERS];
    double begin = seconds();
    write_all(write, buffer);
    return seconds() - begin;
}

static void least_times(double least[CANDIDATES]) {
    for (int k = 0; k < PASSES; k++)
        for (int c = 0; c < CANDIDATES; c++) {
            double took = pass(candidates[c].write);
            if (k == 0 || took < least[c])
                least[c] = took;
        }
}

static void print_row(const char *name, const double least[CANDIDATES]) {
    double better_c = least[C_O2] < least[C_O3] ? least[C_O2] : least[C_O3];
    printf("| %s |", name);
    for (int c = 0; c < CANDIDATES; c++)
        printf(" %.2f |", 1e9 * least[c] / ORDERS);
    printf(" %.2f | %.2f |\n", least[PACKAGE] / better_c, least[PACKAGE] / least[RUST]);
}

int main(void) {
    if (!same_calls())
        return 1;
    printf("| records | package | C -O2 | C -O3 | Rust | package / better C | package / Rust |\n");
    printf("|---|---:|---:|---:|---:|---:|---:|\n");
    for (size_t k = 0; k < COUNT_OF(lists); k++) {
        double least[CANDIDATES];
        draw(&lists[k]);
        if (!same_list(&lists[k]))
            return 1;
        least_times(least);
        print_row(lists[k].name, least);
    }
    return 0;
}
