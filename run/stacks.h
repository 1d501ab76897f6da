/* Stacks for the handler: each thread has one that signals come in on, and one that the library is called on. */
#ifndef STACKS_H
#define STACKS_H

#include "self.h"

/* For the first thread, at the start; the others get theirs by pthread_create and thrd_create. */
void stacks_start(void);

/* Calls a function on this thread's own stack, whatever room is left on the one in use: a program may have set up a small one for signals. What the function
 * left there, keys among it, is then cleared. */
void call_on_own_stack(const struct self *self, void (*function)(void *argument), void *argument);

#endif
