/* The exported calls on a stack of a size that is chosen, above pages that cannot be touched. */
#ifndef GUARD_H
#define GUARD_H

#include <stdbool.h>
#include <stddef.h>

#include "keylocker.h"

/* The ABI aligns the stack to 16 bytes at every call, so a size between two multiples is no more than the lower one. */
enum { STACK_STEP = 16, STACK_ROOM = 65536 };

/* where calls go: to the library at once, or to it on the small stack */
struct entries {
    __typeof__(keylocker_power_on) *power_on;
    __typeof__(keylocker_step) *step;
    __typeof__(keylocker_ctr) *ctr;
    __typeof__(keylocker_cpuid) *cpuid;
    __typeof__(keylocker_read) *read;
    __typeof__(keylocker_write) *write;
    __typeof__(keylocker_taken) *taken;
    __typeof__(keylocker_settle) *settle;
    __typeof__(keylocker_sleep) *sleep;
    __typeof__(keylocker_reset) *reset;
    __typeof__(keylocker_keyring_lookup) *keyring_lookup;
    __typeof__(keylocker_keyring_add) *keyring_add;
};

extern const struct entries on_normal_stack, on_small_stack;

bool guard_start(void);

/* make makes one call by on_small_stack, which has this many bytes, a multiple of STACK_STEP and at most STACK_ROOM: the call's arguments on the stack, its
 * return address and all below. False if the call touched what lies below them; what it was lent is then of no use. */
bool runs_on(size_t bytes, void (*make)(void *argument), void *argument);

#endif
