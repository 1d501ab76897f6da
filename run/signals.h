/* Signals as the kernel has them: sets of 64 bits, with those that the C library keeps for itself. */
#ifndef SIGNALS_H
#define SIGNALS_H

#include <signal.h>
#include <stdint.h>
#include <string.h>
#include <ucontext.h>

#include "system.h"

#define ALL_SIGNALS UINT64_MAX

struct kernel_action {
    union {
        void (*handler)(int signal);
        void (*action)(int signal, siginfo_t *info, void *context);
    };
    unsigned long flags;
    void (*restorer)(void);
    uint64_t mask;
};

static inline uint64_t signal_bit(int signal)
{
    return UINT64_C(1) << (signal - 1);
}

/* A set of the C library begins with the kernel's. */
static inline uint64_t bits_of(const sigset_t *set)
{
    uint64_t bits;
    memcpy(&bits, set, sizeof bits);
    return bits;
}

static inline void put_bits(sigset_t *set, uint64_t bits)
{
    memcpy(set, &bits, sizeof bits);
}

static inline long kernel_sigaction(int signal, const struct kernel_action *action, struct kernel_action *old)
{
    return SYSTEM(SYS_rt_sigaction, signal, action, old, sizeof(uint64_t));
}

static inline long kernel_sigmask(int how, uint64_t set)
{
    return SYSTEM(SYS_rt_sigprocmask, how, &set, 0, sizeof set);
}

#endif
