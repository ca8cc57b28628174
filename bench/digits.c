/* Writes the digits of the fluids as constants for the candidates. They stand once outside the crates, in the tests' table, so
 * that neither bench's C nor its Rust can have others.
 *
 *     digits c | digits rust
 *
 * 17 digits give each double back. */
#include <stdio.h>
#include <string.h>

#include "../tests/independent/fluid.h"

#define DIGITS "%.16e"

/* How a language writes the parts of an entry. */
struct language {
    void (*single)(const char *c_name, const char *rust_name, double value);
    void (*range)(const char *c_name, const char *rust_name, const struct range *range);
    void (*pair)(const struct ideal_pair *pair);
    void (*row)(const struct row *row);
    void (*series)(const char *name, const struct series *series);
    /* What stands before the array, an entry, its top, its pairs and its rows, and after a list, an entry and the array. */
    const char *begin, *entry, *top, *pairs, *rows, *list_end, *entry_end, *end;
};

/* ---- C, where fluids.h has the types */

static void c_single(const char *c_name, const char *rust_name, double value) {
    (void)rust_name;
    printf("        .%s = " DIGITS ",\n", c_name, value);
}

static void c_range(const char *c_name, const char *rust_name, const struct range *range) {
    (void)rust_name;
    printf("        .%s = {" DIGITS ", " DIGITS "},\n", c_name, range->least, range->greatest);
}

static void c_pair(const struct ideal_pair *pair) {
    printf("            {" DIGITS ", " DIGITS "},\n", pair->v, pair->u);
}

static void c_row(const struct row *row) {
    static const char *const kinds[] = {[PLAIN] = "PLAIN", [DAMPED] = "DAMPED", [BELL] = "BELL"};
    printf("            {%s, " DIGITS ", " DIGITS ", %u, %u, ", kinds[row->kind], row->N, row->t, row->d, row->l);
    printf(DIGITS ", " DIGITS ", " DIGITS ", " DIGITS "},\n", row->eta, row->beta, row->gamma, row->epsilon);
}

static void c_series(const char *name, const struct series *series) {
    printf("        .%s = {%zu, {", name, series->count);
    for (size_t k = 0; k < series->count; k++)
        printf("{" DIGITS ", " DIGITS "}, ", series->term[k].N, series->term[k].t);
    printf("}},\n");
}

static const struct language in_c = {
    c_single, c_range, c_pair, c_row, c_series,
    "static const struct fluid fluids[] = {\n",
    "    {\n",
    "        .top = ",
    "        .pairs = {\n",
    "        .rows = {\n",
    "        },\n",
    "    },\n",
    "};\n",
};

/* ---- Rust, where fluids.rs has them */

static void rust_single(const char *c_name, const char *rust_name, double value) {
    (void)c_name;
    printf("        %s: " DIGITS ",\n", rust_name, value);
}

static void rust_range(const char *c_name, const char *rust_name, const struct range *range) {
    (void)c_name;
    printf("        %s: Range { least: " DIGITS ", greatest: " DIGITS " },\n", rust_name, range->least, range->greatest);
}

static void rust_pair(const struct ideal_pair *pair) {
    printf("            (" DIGITS ", " DIGITS "),\n", pair->v, pair->u);
}

static void rust_row(const struct row *row) {
    static const char *const kinds[] = {[PLAIN] = "Plain", [DAMPED] = "Damped", [BELL] = "Bell"};
    printf("            %s(Power(" DIGITS ", " DIGITS ", %u)", kinds[row->kind], row->N, row->t, row->d);
    if (row->kind == DAMPED)
        printf(", %u", row->l);
    if (row->kind == BELL)
        printf(", shape(" DIGITS ", " DIGITS ", " DIGITS ", " DIGITS ")", row->eta, row->beta, row->gamma, row->epsilon);
    printf("),\n");
}

static void rust_term(const struct estimate_term *term) {
    if (term->t == 1)
        printf("Alone(" DIGITS "), ", term->N);
    else
        printf("Raised(" DIGITS ", " DIGITS "), ", term->N, term->t);
}

static void rust_series(const char *name, const struct series *series) {
    printf("        %s: &[", name);
    for (size_t k = 0; k < series->count; k++)
        rust_term(&series->term[k]);
    printf("],\n");
}

static const struct language in_rust = {
    rust_single, rust_range, rust_pair, rust_row, rust_series,
    "pub static FLUIDS: &[Fluid] = &[\n",
    "    Fluid {\n",
    "        top: ",
    "        pairs: [\n",
    "        rows: [\n",
    "        ],\n",
    "    },\n",
    "];\n",
};

/* ---- both */

static void write_singles(const struct language *in, const struct fluid *fluid) {
    in->single("Tc", "critical_t", fluid->Tc);
    in->single("rhoc", "critical_rho", fluid->rhoc);
    in->single("R", "r", fluid->R);
    in->single("M", "m", fluid->M);
    in->single("a1", "a1", fluid->a1);
    in->single("a2", "a2", fluid->a2);
    in->single("c0", "c0", fluid->c0);
    in->range("T", "t", &fluid->T);
    in->range("rho", "rho", &fluid->rho);
    in->range("P", "p", &fluid->P);
    printf("%s%d,\n", in->top, (int)fluid->top);
}

static void write_pairs(const struct language *in, const struct fluid *fluid) {
    printf("%s", in->pairs);
    for (size_t k = 0; k < IDEAL_PAIRS; k++)
        in->pair(&fluid->pair[k]);
    printf("%s", in->list_end);
}

static void write_rows(const struct language *in, const struct fluid *fluid) {
    printf("%s", in->rows);
    for (size_t k = 0; k < ROWS; k++)
        in->row(&fluid->row[k]);
    printf("%s", in->list_end);
}

static void write_estimates(const struct language *in, const struct fluid *fluid) {
    in->series("liquid", &fluid->liquid_density);
    in->series("vapour", &fluid->vapour_density);
}

static void write_fluids(const struct language *in) {
    printf("%s", in->begin);
    for (uint64_t number = 0; number < FLUIDS; number++) {
        const struct fluid *fluid = fluid_numbered(number);
        printf("%s", in->entry);
        write_singles(in, fluid);
        write_pairs(in, fluid);
        write_rows(in, fluid);
        write_estimates(in, fluid);
        printf("%s", in->entry_end);
    }
    printf("%s", in->end);
}

int main(int count, char **words) {
    if (count == 2 && strcmp(words[1], "c") == 0)
        write_fluids(&in_c);
    else if (count == 2 && strcmp(words[1], "rust") == 0)
        write_fluids(&in_rust);
    else
        return 2;
    return fflush(stdout) != 0;
}
