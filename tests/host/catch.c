#define _DEFAULT_SOURCE /* sigaltstack */

#include "catch.h"

#include <setjmp.h>
#include <signal.h>

enum { HANDLER_STACK = 65536 };

static const uint8_t *from;
static size_t count;
static sigjmp_buf before_make;
static volatile sig_atomic_t making;
static const uint8_t *volatile touched;

static void on_fault(int number, siginfo_t *info, void *context)
{
    (void)context;
    touched = info->si_addr;
    if (making && (uintptr_t)touched - (uintptr_t)from < count)
        siglongjmp(before_make, 1);
    signal(number, SIG_DFL); /* another place: the access comes again and ends the program */
}

bool catch_start(const uint8_t *pages, size_t length)
{
    static uint8_t handler_stack[HANDLER_STACK]; /* the call may have no stack left */
    stack_t handler = {.ss_sp = handler_stack, .ss_size = sizeof handler_stack};
    struct sigaction action = {.sa_sigaction = on_fault, .sa_flags = SA_SIGINFO | SA_ONSTACK};
    from = pages;
    count = length;
    return sigaltstack(&handler, NULL) == 0 && sigaction(SIGSEGV, &action, NULL) == 0;
}

const uint8_t *caught(void (*make)(void *argument), void *argument)
{
    touched = NULL;
    if (sigsetjmp(before_make, 1) == 0) {
        making = 1;
        make(argument);
    }
    making = 0;
    return touched;
}
