/* Starting the probe, reading what it answers, and judging how it ended. */
#define _POSIX_C_SOURCE 200809L

#include "probe_run.h"

#include <errno.h>
#include <poll.h>
#include <signal.h>
#include <stdlib.h>
#include <string.h>
#include <sys/wait.h>
#include <unistd.h>

enum { SILENCE_MILLISECONDS = 300000, CANNOT_START = 127 };

struct pipes {
    int questions[2], answers[2];
};

static bool told(const char *what)
{
    printf("  %s: %s\n", what, strerror(errno));
    return false;
}

static void become_probe(const char *path, const struct pipes *pipes)
{
    dup2(pipes->questions[0], STDIN_FILENO);
    dup2(pipes->answers[1], STDOUT_FILENO);
    close(pipes->questions[0]);
    close(pipes->questions[1]);
    close(pipes->answers[0]);
    close(pipes->answers[1]);
    execl(path, path, (char *)NULL);
    fprintf(stderr, "%s: %s\n", path, strerror(errno));
    _exit(CANNOT_START);
}

static void become_writer(const struct pipes *pipes, write_input *feed, const void *what)
{
    close(pipes->answers[0]);
    FILE *input = fdopen(pipes->questions[1], "wb");
    if (input == NULL)
        _exit(EXIT_FAILURE);
    feed(input, what);
    bool failed = ferror(input) != 0;
    _exit(fclose(input) != 0 || failed ? EXIT_FAILURE : EXIT_SUCCESS);
}

/* Ends a process of this run that could wait for ever. */
static void end_process(pid_t process)
{
    kill(process, SIGKILL);
    waitpid(process, NULL, 0);
}

bool start_probe(struct probe_run *run, const char *path, write_input *feed, const void *what)
{
    struct pipes pipes;
    if (pipe(pipes.questions) != 0 || pipe(pipes.answers) != 0)
        return told("no pipe");
    fflush(stdout);
    *run = (struct probe_run){ .answers = pipes.answers[0] };
    run->probe = fork();
    if (run->probe == 0)
        become_probe(path, &pipes);
    close(pipes.questions[0]);
    close(pipes.answers[1]);
    if (run->probe < 0)
        return told("no process for the probe");
    run->writer = fork();
    if (run->writer == 0)
        become_writer(&pipes, feed, what);
    close(pipes.questions[1]);
    if (run->writer < 0) {
        end_process(run->probe);
        return told("no process for the questions");
    }
    return true;
}

static ssize_t read_or_time_out(struct probe_run *run)
{
    struct pollfd waiting = { .fd = run->answers, .events = POLLIN };
    for (;;) {
        int ready = poll(&waiting, 1, SILENCE_MILLISECONDS);
        run->silent = ready == 0;
        if (run->silent)
            return 0;
        ssize_t got = ready < 0 ? -1 : read(run->answers, run->buffer, READ_BYTES);
        if (got >= 0 || errno != EINTR)
            return got;
    }
}

static bool next_byte(struct probe_run *run, unsigned char *byte)
{
    if (run->used == run->have && !run->ended) {
        ssize_t got = read_or_time_out(run);
        run->ended = got <= 0;
        run->used = 0;
        run->have = got > 0 ? (size_t)got : 0;
    }
    if (run->used == run->have)
        return false;
    *byte = run->buffer[run->used++];
    return true;
}

size_t read_answer(struct probe_run *run, struct answer *answer)
{
    unsigned char bytes[ANSWER_BYTES];
    size_t came = 0;
    while (came < ANSWER_BYTES && next_byte(run, &bytes[came]))
        came++;
    if (came == ANSWER_BYTES)
        *answer = get_answer(bytes);
    return came;
}

static bool answers_are_over(struct probe_run *run)
{
    unsigned char byte;
    if (next_byte(run, &byte)) {
        printf("  the probe writes more than its answers\n");
        return false;
    }
    if (run->silent)
        printf("  the probe was silent for %d seconds\n", SILENCE_MILLISECONDS / 1000);
    return !run->silent;
}

static bool ended_well(const char *which, pid_t process)
{
    int status;
    if (waitpid(process, &status, 0) != process)
        return told("waiting failed");
    if (WIFSIGNALED(status))
        printf("  %s was ended by signal %d\n", which, WTERMSIG(status));
    else if (WEXITSTATUS(status) == CANNOT_START)
        printf("  %s could not be started\n", which);
    else if (WEXITSTATUS(status) != 0)
        printf("  %s ended with status %d\n", which, WEXITSTATUS(status));
    return WIFEXITED(status) && WEXITSTATUS(status) == 0;
}

bool finish_probe(struct probe_run *run)
{
    bool over = answers_are_over(run);
    close(run->answers);
    if (!over) {
        end_process(run->probe);
        end_process(run->writer);
        return false;
    }
    bool probe_well = ended_well("the probe", run->probe);
    bool writer_well = ended_well("the writer of questions", run->writer);
    return probe_well && writer_well;
}
