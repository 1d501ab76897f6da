/* What is emulated, written as lines of the trace language (simulator/TRACES.md). */
#ifndef TRACE_H
#define TRACE_H

#include "decode.h"
#include "keylocker.h"

/* An instruction and what became of it. */
struct emulated {
    const struct instruction *instruction;
    uint8_t before[KEYLOCKER_CPU_SIZE], after[KEYLOCKER_CPU_SIZE]; /* CPU records */
    uint8_t handle[KEYLOCKER_HANDLE_256_SIZE];
    size_t handle_len; /* 0 where it could not be read */
    uint32_t answer;
    int signal; /* where it was refused */
};

/* A path that is not there leaves traces out. */
void trace_start(const char *path);

/* In a handler and under the machine's lock, so that lines of several processes stand in the order of the calls. */
void trace(const struct emulated *e);

#endif
