/* How far a long trace has come, on standard error where that is a terminal. */
#ifndef PROGRESS_H
#define PROGRESS_H

#include <stdbool.h>
#include <stddef.h>
#include <stdint.h>

/* total is the size of the trace in bytes, 0 where it is not known. Where printed lines go to a terminal they are the progress. */
void progress_start(uint64_t total, bool printing);

/* To be called for each line; cheap. */
void progress_line(size_t number, uint64_t consumed);

/* Takes the progress from the terminal, before anything else is written there. */
void progress_erase(void);

#endif
