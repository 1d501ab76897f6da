/* Ctrl-C: the run ends between two lines, with its summary. A second one ends the program at once. */
#ifndef INTERRUPT_H
#define INTERRUPT_H

#include <stdbool.h>
#include <stddef.h>
#include <sys/types.h>

void interrupt_start(void);

bool interrupted(void);

/* As read, which Ctrl-C ends: interrupted() tells, and what is returned does not count then. */
ssize_t read_interruptible(int fd, char *buffer, size_t size);

#endif
