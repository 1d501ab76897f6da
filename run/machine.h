/* The machine of this process. */
#ifndef MACHINE_H
#define MACHINE_H

#include <stdbool.h>
#include <stdint.h>

#include "self.h"

/* At the start. What cannot be opened is told when an instruction needs it: most programs have none. */
void machine_start(const char *path);
bool machine_there(void);

/* Told where a call finds that it is no machine any more. */
void machine_damaged(void);

/* In a handler, where all signals are masked: makes the calls of a function on the machine, under its lock. */
void with_machine(const struct self *self, void (*calls)(uint8_t *block, void *argument), void *argument);

#endif
