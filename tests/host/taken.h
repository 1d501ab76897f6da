/* Taken on every state of backup, store and flags, and the calls behind it: that they act as without it. */
#ifndef TAKEN_H
#define TAKEN_H

#include <stdbool.h>

/* says on stdout what differs */
bool library_meets_taken(void);

#endif
