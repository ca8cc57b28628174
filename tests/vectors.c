/*
 * The stored vectors: questions, and the text that answers them.
 *
 *     vectors-make questions FILE
 *     vectors-make answers FILE
 */
#include "independent/refusals.h"
#include "vectors/sheet.h"

#include <inttypes.h>
#include <stdio.h>
#include <stdlib.h>
#include <string.h>

static section *const sections[] = {
    exp_questions,
    ln_questions,
    root_questions,
    property_questions,
    estimate_questions,
    search_questions,
    unknown_questions,
};

static void write_questions(FILE *file, const struct sheet *sheet)
{
    for (size_t i = 0; i < sheet->count; i++) {
        unsigned char bytes[QUESTION_BYTES];
        put_question(bytes, sheet->question[i]);
        fwrite(bytes, 1, sizeof bytes, file);
    }
}

static void write_line(FILE *file, struct question question)
{
    struct answer answer = answer_question(question.call, question.first, question.second);
    fprintf(file, "%" PRIu64 " %016" PRIx64 " %016" PRIx64 " %" PRIu64 " ", question.call,
            question.first, question.second, answer.code);
    if (answer.code == ANSWERED)
        fprintf(file, "%016" PRIx64 "\n", answer.bits);
    else
        fprintf(file, "----------------\n");
}

static void write_answers(FILE *file, const struct sheet *sheet)
{
    fprintf(file, "call first second code bits\n");
    for (size_t i = 0; i < sheet->count; i++)
        write_line(file, sheet->question[i]);
}

typedef void write_sheet(FILE *file, const struct sheet *sheet);

static write_sheet *writer_named(const char *name)
{
    if (strcmp(name, "questions") == 0)
        return write_questions;
    return strcmp(name, "answers") == 0 ? write_answers : NULL;
}

static bool is_asked(const struct sheet *sheet, uint64_t call)
{
    for (size_t i = 0; i < sheet->count; i++)
        if (sheet->question[i].call == call)
            return true;
    return false;
}

/* A call of a fluid that no section asks would be in no vector, and nothing would differ. */
static bool every_number_is_asked(const struct sheet *sheet)
{
    struct numbers all = known_numbers();
    for (size_t i = 0; i < all.count; i++)
        if (!is_asked(sheet, all.number[i])) {
            fprintf(stderr, "%s, number %" PRIu64 ", is not asked\n", known_call(all.number[i])->name,
                    all.number[i]);
            return false;
        }
    return true;
}

static int write_file(const char *name, write_sheet *writer, const struct sheet *sheet)
{
    FILE *file = fopen(name, "wb");
    if (file == NULL) {
        perror(name);
        return EXIT_FAILURE;
    }
    writer(file, sheet);
    bool failed = ferror(file) != 0;
    if (fclose(file) != 0 || failed) {
        perror(name);
        return EXIT_FAILURE;
    }
    return EXIT_SUCCESS;
}

int main(int count, char **words)
{
    static struct sheet sheet;
    write_sheet *writer = count == 3 ? writer_named(words[1]) : NULL;
    if (writer == NULL) {
        fprintf(stderr, "usage: vectors-make questions|answers FILE\n");
        return EXIT_FAILURE;
    }
    for (size_t i = 0; i < sizeof sections / sizeof *sections; i++)
        sections[i](&sheet);
    if (!every_number_is_asked(&sheet))
        return EXIT_FAILURE;
    return write_file(words[2], writer, &sheet);
}
