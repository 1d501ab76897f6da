#include "actions.h"

#include <stdatomic.h>
#include <stddef.h>

#ifndef SA_RESTORER
#define SA_RESTORER 0x04000000
#endif

/* rt_sigreturn, in the bytes by which debuggers and unwinders know a signal's frame. */
void return_from_signal(void) __attribute__((visibility("hidden")));
__asm__(".text\n"
        ".type return_from_signal, @function\n"
        "return_from_signal:\n"
        "    mov $15, %rax\n"
        "    syscall\n"
        ".size return_from_signal, . - return_from_signal\n");

/* ---- the actions */

/* Read by handlers of other threads while one is set: so each is put into another place, of which there are too many for a reader to be overtaken. */
enum { PLACES = 64, SIGNALS = 65 };

struct own {
    void (*handler)(int signal, siginfo_t *info, void *context);
    struct sigaction places[PLACES];
    _Atomic unsigned next, current;
};

static struct own ill, segv;
static uint64_t owned;

static struct own *own_of(int signal)
{
    return signal == SIGSEGV ? &segv : &ill;
}

bool actions_owned(int signal)
{
    return signal > 0 && signal < SIGNALS && owned & signal_bit(signal);
}

uint64_t actions_mask(uint64_t set)
{
    return set & ~owned;
}

static void put_action(struct own *own, const struct sigaction *action)
{
    unsigned place = atomic_fetch_add(&own->next, 1) % PLACES;
    own->places[place] = *action;
    atomic_store(&own->current, place);
}

static void set_default(int signal)
{
    const struct kernel_action action = {0};
    kernel_sigaction(signal, &action, NULL);
}

/* System calls that the signal comes in go on or not as the program's action has it. */
static void set_ours(int signal, const struct sigaction *programs)
{
    struct kernel_action ours = {.action = own_of(signal)->handler, SA_SIGINFO | SA_ONSTACK | SA_RESTORER, return_from_signal, ALL_SIGNALS};
    if (programs->sa_handler == SIG_DFL || programs->sa_handler == SIG_IGN || programs->sa_flags & SA_RESTART)
        ours.flags |= SA_RESTART;
    kernel_sigaction(signal, &ours, NULL);
}

void actions_exchange(int signal, const struct sigaction *action, struct sigaction *old)
{
    struct own *own = own_of(signal);
    struct sigaction before = own->places[atomic_load(&own->current)];
    if (action != NULL) {
        put_action(own, action);
        set_ours(signal, action);
    }
    if (old != NULL)
        *old = before;
}

void actions_own(int signal, void (*handler)(int signal, siginfo_t *info, void *context))
{
    struct kernel_action first = {0};
    struct sigaction programs = {0};
    kernel_sigaction(signal, NULL, &first);
    programs.sa_handler = first.handler;
    own_of(signal)->handler = handler;
    actions_exchange(signal, &programs, NULL);
    owned |= signal_bit(signal);
    kernel_sigmask(SIG_UNBLOCK, signal_bit(signal));
}

/* ---- signals that are the program's */

/* Behind the handler the processor executes the instruction again; where the signal came from elsewhere, it has to come again. */
static void end_by(const siginfo_t *info, bool from_processor)
{
    set_default(info->si_signo);
    if (!from_processor)
        SYSTEM(SYS_rt_tgsigqueueinfo, SYSTEM(SYS_getpid), SYSTEM(SYS_gettid), info->si_signo, info);
}

static void call_handler(const struct sigaction *action, siginfo_t *info, ucontext_t *context)
{
    uint64_t mask = bits_of(&context->uc_sigmask) | bits_of(&action->sa_mask);
    if (!(action->sa_flags & SA_NODEFER))
        mask |= signal_bit(info->si_signo);
    if (action->sa_flags & SA_RESETHAND) {
        const struct sigaction none = {0};
        actions_exchange(info->si_signo, &none, NULL);
    }
    kernel_sigmask(SIG_SETMASK, actions_mask(mask));
    action->sa_sigaction(info->si_signo, info, context);
}

void pass_on(siginfo_t *info, ucontext_t *context)
{
    struct sigaction action;
    bool from_processor = info->si_code > 0;
    actions_exchange(info->si_signo, NULL, &action);
    if (action.sa_handler == SIG_IGN && !from_processor)
        return;
    if (action.sa_handler == SIG_DFL || action.sa_handler == SIG_IGN)
        end_by(info, from_processor);
    else
        call_handler(&action, info, context);
}

/* Of a signal that is owned the kernel has our action, to which one that is sent from here looks as if the processor had made it. */
static bool has_handler(int signal)
{
    struct kernel_action kernels = {0};
    struct sigaction programs;
    if (actions_owned(signal)) {
        actions_exchange(signal, NULL, &programs);
        return programs.sa_handler != SIG_DFL && programs.sa_handler != SIG_IGN;
    }
    kernel_sigaction(signal, NULL, &kernels);
    return kernels.handler != SIG_DFL && kernels.handler != SIG_IGN;
}

void send_fault(const siginfo_t *info, ucontext_t *context)
{
    int signal = info->si_signo;
    uint64_t mask = bits_of(&context->uc_sigmask);
    if (mask & signal_bit(signal) || !has_handler(signal))
        set_default(signal);
    put_bits(&context->uc_sigmask, mask & ~signal_bit(signal));
    SYSTEM(SYS_rt_tgsigqueueinfo, SYSTEM(SYS_getpid), SYSTEM(SYS_gettid), signal, info);
}
