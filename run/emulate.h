/* One instruction of the program, executed by the library. */
#ifndef EMULATE_H
#define EMULATE_H

#include <stdbool.h>
#include <stdint.h>
#include <ucontext.h>

#include "self.h"

/* In the handler, at an instruction that the processor does not know: whether it was executed, or became another signal that the program gets behind the
 * handler. Otherwise it is #UD. */
bool emulate(ucontext_t *context, const struct self *self);

/* The CPU record of a program: its registers, at CPL 3. */
void record_of(const ucontext_t *context, uint8_t *record);

/* Counts and traces what is emulated; a path that is not there leaves it out. */
void emulate_start(const char *counts, const char *trace);

#endif
