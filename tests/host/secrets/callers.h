/* Functions of a host that make calls, compiled as hosts are: by one compiler with its options, or by another. */
#ifndef CALLERS_H
#define CALLERS_H

#include "../stack/kinds.h"

/* where keylocker_clear_stack is called: not at all, behind the call in the function that makes it, or further out, there with a small frame or a large one */
enum clearing { NOT_AT_ALL, IN_THE_CALLER, FURTHER_OUT, WITH_LARGE_FRAME, CLEARINGS };

/* The functions have pointers and lengths in their frames, and nothing of what these point to. */
void call_as_host(const struct kind *kind, enum clearing clearing, struct lent *lent);

/* where the frame of the function ends that made the last call */
extern const uint8_t *caller_bottom;

#endif
