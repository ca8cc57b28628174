/*
 * One run of the probe. A process of its own writes the questions, so that
 * neither side waits for the other however the probe buffers.
 */
#ifndef PROBE_RUN_H
#define PROBE_RUN_H

#include "wire.h"

#include <stdio.h>
#include <sys/types.h>

enum { READ_BYTES = 1 << 16 };

struct probe_run {
    pid_t probe, writer;
    int answers;
    size_t have, used;
    bool ended, silent;
    unsigned char buffer[READ_BYTES];
};

/* Writes the input of a run; called in the writing process. */
typedef void write_input(FILE *input, const void *what);

/* False, and told, where a process could not be made. */
bool start_probe(struct probe_run *run, const char *path, write_input *feed, const void *what);

/* How many bytes of an answer came: 16, or fewer where the answers end. */
size_t read_answer(struct probe_run *run, struct answer *answer);

/* True where the answers are over and both processes ended well; tells what is wrong otherwise. */
bool finish_probe(struct probe_run *run);

#endif
