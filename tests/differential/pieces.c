/* Inputs of a few bytes, kept as they are. */
#define _POSIX_C_SOURCE 200809L

#include "../independent/bits.h"
#include "../independent/refusals.h"
#include "../probe_run.h"
#include "asked.h"

#include <time.h>

enum { LONGEST_INPUT = 49, BYTES_AT_A_TIME = 5 };

struct input {
    size_t length;
    unsigned char bytes[1024];
};

static void write_bytes(FILE *input, const void *what)
{
    const struct input *kept = what;
    fwrite(kept->bytes, 1, kept->length, input);
}

/* So slowly that the probe reads part of a question and must come back for the rest. */
static void write_slowly(FILE *input, const void *what)
{
    const struct input *kept = what;
    const struct timespec pause = { .tv_nsec = 1000000 };
    for (size_t at = 0; at < kept->length; at += BYTES_AT_A_TIME) {
        size_t rest = kept->length - at;
        fwrite(kept->bytes + at, 1, rest < BYTES_AT_A_TIME ? rest : BYTES_AT_A_TIME, input);
        fflush(input);
        nanosleep(&pause, NULL);
    }
}

static void append(struct input *input, struct question question)
{
    put_question(input->bytes + input->length, question);
    input->length += QUESTION_BYTES;
}

/* What the probe must answer to the input's i-th whole question or last piece. */
static struct answer expected_at(const struct input *input, size_t i)
{
    const unsigned char *at = input->bytes + i * QUESTION_BYTES;
    if (input->length - i * QUESTION_BYTES < QUESTION_BYTES)
        return (struct answer){ .code = REFUSED_CUT_SHORT, .bits = NO_BITS };
    return answer_question(get_number(at), get_number(at + 8), get_number(at + 16));
}

static bool answers_as_expected(struct probe_run *run, const struct input *input)
{
    size_t count = (input->length + QUESTION_BYTES - 1) / QUESTION_BYTES;
    bool all = true;
    for (size_t i = 0; i < count; i++) {
        struct answer got, wanted = expected_at(input, i);
        if (read_answer(run, &got) < ANSWER_BYTES) {
            printf("  the answers end after %zu of %zu\n", i, count);
            return false;
        }
        if (same(got, wanted))
            continue;
        printf("  answer %zu of %zu:", i + 1, count);
        show_answer("probe", got);
        show_answer("but expected", wanted);
        printf("\n");
        all = false;
    }
    return all;
}

static bool compare_input(const struct asked *asked, const struct input *input, write_input *feed)
{
    static struct probe_run run;
    if (!start_probe(&run, asked->probe, feed, input))
        return false;
    bool equal = answers_as_expected(&run, input);
    return finish_probe(&run) && equal;
}

static void compare_piece(struct asked *asked, const struct input *piece, write_input *feed,
                          const char *how)
{
    bool passed = compare_input(asked, piece, feed);
    printf("input of %zu bytes%s: %s\n", piece->length, how, passed ? "equal" : "FAILED");
    record(asked, passed);
}

void compare_pieces(struct asked *asked)
{
    struct input piece = { 0 };
    append(&piece, (struct question){ 110, bits_of(250), bits_of(11) });
    append(&piece, (struct question){ 99, bits_of(3), bits_of(4) });
    append(&piece, (struct question){ 2, bits_of(5), bits_of(6) });
    for (piece.length = 0; piece.length <= LONGEST_INPUT; piece.length++)
        compare_piece(asked, &piece, write_bytes, "");
    compare_piece(asked, &piece, write_slowly, " a few at a time");
}

void compare_second(struct asked *asked, uint64_t number)
{
    const struct fluid *fluid = fluid_asked(number);
    /* Between Tc and the greatest temperature an estimate gets 13. */
    double firsts[] = { 1, 2, 250, (fluid->Tc + fluid->T.greatest) / 2, 701, NAN };
    static const uint64_t seconds[] = { 0, 1, 0x7ff0000000000000, 0x7ff4000000000001, UINT64_MAX };
    struct input input = { 0 };
    char name[NAME_ROOM];
    for (size_t i = 0; i < sizeof firsts / sizeof *firsts; i++)
        for (size_t j = 0; j < sizeof seconds / sizeof *seconds; j++)
            append(&input, (struct question){ number, bits_of(firsts[i]), seconds[j] });
    bool passed = compare_input(asked, &input, write_bytes);
    name_number(name, number);
    printf("%s: second number %s\n", name, passed ? "not looked at" : "FAILED");
    record(asked, passed);
}
