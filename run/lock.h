/* A lock in memory that processes share, for short sections in which all signals are masked. The kernel frees it where its holder dies in one: it is a robust
 * futex (Linux, Documentation/locking/robust-futex-ABI.rst). */
#ifndef LOCK_H
#define LOCK_H

#include <stdatomic.h>
#include <stdbool.h>
#include <stdint.h>

#include "self.h"

struct lock {
    _Atomic uint32_t word; /* the holder's thread, and two bits of the kernel's; 0 is free */
};

/* What the holder keeps between taking and freeing. */
struct holding {
    struct self self;
    void *pending; /* as the thread's list had it */
};

/* False where it was not to be had for a while: its holder is stopped, say by Ctrl-Z. */
bool lock_take(struct lock *lock, const struct self *self, struct holding *holding);
void lock_free(struct lock *lock, struct holding *holding);

/* The thread that has it, or 0; and that it has not, where that is known. */
long lock_holder(const struct lock *lock);
void lock_clear(struct lock *lock, long holder);

#endif
