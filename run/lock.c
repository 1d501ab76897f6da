#include "lock.h"

#include <errno.h>
#include <linux/futex.h>
#include <stddef.h>
#include <time.h>

#include "system.h"

/* A section takes microseconds. */
enum { PATIENCE_NS = 200000000 };

/* ---- what the kernel looks at when a thread dies */

/* The C library gives each thread a list of the locks that it holds; which one it is about to take or to free stands beside it, and that is enough for a lock
 * that is held in a section where the thread takes no other. */
static void announce(struct lock *lock, struct holding *h)
{
    struct robust_list_head *head = h->self.robust;
    if (head == NULL)
        return;
    h->pending = head->list_op_pending;
    head->list_op_pending = (struct robust_list *)((char *)&lock->word - head->futex_offset);
    atomic_signal_fence(memory_order_seq_cst);
}

static void withdraw(struct holding *h)
{
    atomic_signal_fence(memory_order_seq_cst);
    if (h->self.robust != NULL)
        h->self.robust->list_op_pending = h->pending;
}

/* ---- the lock */

/* Whether its holder is no more, though the kernel has not freed it: an earlier boot's, or a child's that had its parent's list. */
static bool lost(struct lock *lock, uint32_t holder)
{
    if (SYSTEM(SYS_kill, holder, 0) != -ESRCH)
        return false;
    lock_clear(lock, holder);
    return true;
}

/* It is freed for one that waits, who frees it for the next: whoever has waited says that others may. */
static bool take_by(struct lock *lock, uint32_t thread)
{
    /* the holder that was waited for in vain: waiting for it again would make each call as slow */
    static _Atomic uint32_t stuck;
    uint32_t others = 0, found = 0;
    while (!atomic_compare_exchange_strong(&lock->word, &found, thread | others | (found & FUTEX_WAITERS))) {
        uint32_t holder = found & FUTEX_TID_MASK;
        if (holder == 0)
            continue; // free, or its holder died: found is what to exchange
        if (holder == atomic_load(&stuck))
            return false;
        uint32_t waited = found | FUTEX_WAITERS;
        if (found == waited || atomic_compare_exchange_strong(&lock->word, &found, waited)) {
            const struct timespec patience = {.tv_nsec = PATIENCE_NS};
            others = FUTEX_WAITERS;
            if (SYSTEM(SYS_futex, &lock->word, FUTEX_WAIT, waited, &patience) == -ETIMEDOUT && !lost(lock, holder)) {
                atomic_store(&stuck, holder);
                return false;
            }
        }
        found = 0;
    }
    atomic_store(&stuck, 0);
    return true;
}

bool lock_take(struct lock *lock, const struct self *self, struct holding *holding)
{
    holding->self = *self;
    announce(lock, holding);
    bool taken = take_by(lock, (uint32_t)holding->self.thread);
    if (!taken)
        withdraw(holding);
    return taken;
}

void lock_free(struct lock *lock, struct holding *holding)
{
    uint32_t word = atomic_load(&lock->word), thread = (uint32_t)holding->self.thread;
    while ((word & FUTEX_TID_MASK) == thread && !atomic_compare_exchange_weak(&lock->word, &word, 0))
        continue;
    if ((word & FUTEX_TID_MASK) == thread && word & FUTEX_WAITERS)
        SYSTEM(SYS_futex, &lock->word, FUTEX_WAKE, 1);
    withdraw(holding);
}

long lock_holder(const struct lock *lock)
{
    return atomic_load(&lock->word) & FUTEX_TID_MASK;
}

void lock_clear(struct lock *lock, long holder)
{
    uint32_t word = atomic_load(&lock->word);
    if ((word & FUTEX_TID_MASK) == holder)
        atomic_compare_exchange_strong(&lock->word, &word, 0);
}
