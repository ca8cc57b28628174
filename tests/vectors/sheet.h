/* The sheet of stored questions, and ways to ask one call about many numbers. */
#ifndef SHEET_H
#define SHEET_H

#include "../wire.h"

/* 8,190 questions are what crates/test_vectors has room for. */
enum { QUESTIONS_MOST = 8190 };

struct sheet {
    size_t count;
    struct question question[QUESTIONS_MOST];
};

void ask(struct sheet *sheet, uint64_t call, uint64_t first, uint64_t second);

/* The second number is 0. */
void ask_one(struct sheet *sheet, uint64_t call, double first);
void ask_each(struct sheet *sheet, uint64_t call, const double *firsts, size_t count);

/* Towards zero first: two neighbours, the number, two neighbours. */
void ask_about(struct sheet *sheet, uint64_t call, double number);
void ask_specials(struct sheet *sheet, uint64_t call);

/* A call of one number does not look at the second. */
void ask_with_seconds(struct sheet *sheet, uint64_t call, double first);

void ask_uniform(struct sheet *sheet, uint64_t call, double least, double greatest, int count);

/* One part of the sheet. */
typedef void section(struct sheet *sheet);

section exp_questions, ln_questions, root_questions;
section property_questions;
section estimate_questions;
section search_questions;
section unknown_questions;

#endif
