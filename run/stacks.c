#include "stacks.h"

#include <signal.h>
#include <stdbool.h>
#include <stdint.h>
#include <string.h>
#include <sys/mman.h>

#include "actions.h"
#include "interpose.h"
#include "system.h"

/* The library needs KEYLOCKER_STACK_SIZE at most, and what calls it some 4 KiB. A signal's frame has all vector registers: some 3 KiB, with AMX 11; the program's
 * own handlers for the signals that are taken here run behind it. */
enum { GUARD = 4096, OWN = 16384, SIGNALS_ROOM = 131072 };

/* What a thread has: from below a guard, the library's stack, a guard, the stack for signals. */
struct stacks {
    uint8_t guard[GUARD], own[OWN], second_guard[GUARD], signals[SIGNALS_ROOM];
};

/* Whose they are is asked, because a thread that a program makes by a system call may have another's variables. */
static __thread struct {
    struct stacks *stacks;
    long thread;
} mine __attribute__((tls_model("initial-exec")));

/* None where there is no memory. No core file gets them: keys are on them. */
static struct stacks *stacks_make(void)
{
    long made = SYSTEM(SYS_mmap, 0, sizeof(struct stacks), PROT_READ | PROT_WRITE, MAP_PRIVATE | MAP_ANONYMOUS | MAP_NORESERVE, -1, 0);
    if (made < 0 && made >= -4095)
        return NULL;
    struct stacks *s = (struct stacks *)made;
    SYSTEM(SYS_mprotect, s->guard, sizeof s->guard, PROT_NONE);
    SYSTEM(SYS_mprotect, s->second_guard, sizeof s->second_guard, PROT_NONE);
    SYSTEM(SYS_madvise, s, sizeof *s, MADV_DONTDUMP);
    return s;
}

static void stacks_free(struct stacks *s)
{
    SYSTEM(SYS_munmap, s, sizeof *s);
}

/* ---- signals */

static void signals_on(struct stacks *s)
{
    const stack_t stack = {.ss_sp = s->signals, .ss_size = sizeof s->signals};
    stack_t old;
    mine.stacks = s;
    mine.thread = SYSTEM(SYS_gettid);
    if (SYSTEM(SYS_sigaltstack, 0, &old) == 0 && old.ss_flags & SS_DISABLE)
        SYSTEM(SYS_sigaltstack, &stack, 0);
}

/* A thread may end in a handler, on the stack for signals: then that stays. */
static void signals_off(struct stacks *s)
{
    const stack_t none = {.ss_flags = SS_DISABLE};
    stack_t old = {0};
    SYSTEM(SYS_sigaltstack, 0, &old);
    if (old.ss_flags & SS_ONSTACK)
        return;
    if (old.ss_sp == s->signals)
        SYSTEM(SYS_sigaltstack, &none, 0);
    mine.stacks = NULL;
    stacks_free(s);
}

static void behind_fork(void)
{
    mine.thread = SYSTEM(SYS_gettid);
}

void stacks_start(void)
{
    struct stacks *s = stacks_make();
    pthread_atfork(NULL, NULL, behind_fork);
    if (s != NULL)
        signals_on(s);
}

/* ---- calls */

static void call_on(uint8_t *top, void (*function)(void *argument), void *argument)
{
    __asm__ volatile("mov %%rsp, %%rbx\n\t"
                     "mov %1, %%rsp\n\t"
                     "call *%2\n\t"
                     "mov %%rbx, %%rsp"
                     : "+D"(argument)
                     : "r"(top), "r"(function)
                     : "rax", "rbx", "rcx", "rdx", "rsi", "r8", "r9", "r10", "r11", "xmm0", "xmm1", "xmm2", "xmm3", "xmm4", "xmm5", "xmm6", "xmm7", "xmm8",
                       "xmm9", "xmm10", "xmm11", "xmm12", "xmm13", "xmm14", "xmm15", "cc", "memory");
}

/* A thread that has none, because it was made otherwise, has them for the one call. */
void call_on_own_stack(const struct self *self, void (*function)(void *argument), void *argument)
{
    struct stacks *s = mine.thread == self->thread ? mine.stacks : NULL;
    if (s == NULL)
        s = stacks_make();
    if (s == NULL) {
        function(argument);
        return;
    }
    call_on(s->own + sizeof s->own, function, argument);
    memset(s->own, 0, sizeof s->own);
    __asm__ volatile("" : : "r"(s->own) : "memory"); // no store is left out
    if (mine.thread != self->thread || s != mine.stacks)
        stacks_free(s);
}

/* ---- threads */

/* Either is how a thread begins. */
struct beginning {
    void *(*routine)(void *argument);
    thrd_start_t function;
    void *argument;
};

static struct beginning *beginning_of(struct stacks *s)
{
    return (struct beginning *)(s->own + sizeof s->own) - 1; // at the top of its stack, where no call has been yet
}

static void end(void *own)
{
    signals_off(own);
}

/* A thread may have been given a mask by its attributes. */
static void *begin(void *own)
{
    struct stacks *s = own;
    struct beginning b = *beginning_of(s);
    void *result;
    signals_on(s);
    kernel_sigmask(SIG_UNBLOCK, ~actions_mask(ALL_SIGNALS));
    pthread_cleanup_push(end, s);
    result = b.routine != NULL ? b.routine(b.argument) : (void *)(intptr_t)b.function(b.argument);
    pthread_cleanup_pop(1);
    return result;
}

static int begin_c11(void *own)
{
    return (int)(intptr_t)begin(own);
}

EXPORTED int pthread_create(pthread_t *thread, const pthread_attr_t *attributes, void *(*routine)(void *), void *argument)
{
    struct stacks *s = stacks_make();
    if (s == NULL)
        return real()->pthread_create(thread, attributes, routine, argument);
    *beginning_of(s) = (struct beginning){.routine = routine, .argument = argument};
    int error = real()->pthread_create(thread, attributes, begin, s);
    if (error != 0)
        stacks_free(s);
    return error;
}

EXPORTED int thrd_create(thrd_t *thread, thrd_start_t function, void *argument)
{
    struct stacks *s = stacks_make();
    if (s == NULL)
        return real()->thrd_create(thread, function, argument);
    *beginning_of(s) = (struct beginning){.function = function, .argument = argument};
    int error = real()->thrd_create(thread, begin_c11, s);
    if (error != thrd_success)
        stacks_free(s);
    return error;
}
