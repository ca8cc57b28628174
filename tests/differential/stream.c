/* Random questions, made twice from the same seed: for the probe and for the comparison. */
#include "../generator.h"
#include "../independent/bits.h"
#include "../probe_run.h"
#include "../splitmix.h"
#include "asked.h"

#include <inttypes.h>

enum { DIFFERENCES_SHOWN = 5 };

struct stream {
    uint64_t seed, count;
    const uint64_t *numbers;
    size_t numbers_count;
};

static void show_difference(struct question question, struct answer got, struct answer wanted)
{
    printf("  call %" PRIu64 " of %016" PRIx64 " (%a), %016" PRIx64 " (%a):", question.call,
           question.first, number_of(question.first), question.second,
           number_of(question.second));
    show_answer("probe", got);
    show_answer("but expected", wanted);
    printf("\n");
}

static struct generator beginning(const struct stream *stream)
{
    return generator_of(stream->seed, stream->numbers, stream->numbers_count);
}

static void write_stream(FILE *input, const void *what)
{
    const struct stream *stream = what;
    struct generator g = beginning(stream);
    for (uint64_t i = 0; i < stream->count && !ferror(input); i++) {
        unsigned char bytes[QUESTION_BYTES];
        put_question(bytes, next_question(&g));
        fwrite(bytes, 1, sizeof bytes, input);
    }
}

static struct answer expected(struct question question)
{
    return answer_question(question.call, question.first, question.second);
}

/* The number of answers that differ; a missing answer is the last that counts. */
static uint64_t differences(struct probe_run *run, const struct stream *stream, struct tally *tally)
{
    struct generator g = beginning(stream);
    uint64_t differing = 0;
    for (uint64_t i = 0; i < stream->count; i++) {
        struct question question = next_question(&g);
        struct answer got;
        size_t came = read_answer(run, &got);
        if (came < ANSWER_BYTES) {
            printf("  the answers end after %" PRIu64 " of %" PRIu64 " and %zu bytes\n", i,
                   stream->count, came);
            return differing + 1;
        }
        struct answer wanted = expected(question);
        add_code(tally, wanted.code);
        if (same(got, wanted))
            continue;
        if (differing < DIFFERENCES_SHOWN)
            show_difference(question, got, wanted);
        differing++;
    }
    return differing;
}

static void show_result(const char *name, const struct stream *stream, uint64_t differing,
                        bool passed)
{
    if (passed)
        printf("%s: %" PRIu64 " questions equal", name, stream->count);
    else
        printf("%s: FAILED, %" PRIu64 " of %" PRIu64 " questions differ", name, differing,
               stream->count);
}

void compare_stream(struct asked *asked, const char *name, const uint64_t *numbers,
                    size_t numbers_count)
{
    uint64_t state = asked->seed ^ numbers[0];
    struct stream stream = {
        .seed = splitmix(&state),
        .count = asked->count,
        .numbers = numbers,
        .numbers_count = numbers_count,
    };
    static struct probe_run run;
    struct tally tally = { 0 };
    bool passed = false;
    uint64_t differing = 0;
    if (start_probe(&run, asked->probe, write_stream, &stream)) {
        differing = differences(&run, &stream, &tally);
        passed = finish_probe(&run) && differing == 0;
    }
    show_result(name, &stream, differing, passed);
    show_tally(&tally);
    printf("\n");
    add_tally(&asked->tally, &tally);
    record(asked, passed);
}
