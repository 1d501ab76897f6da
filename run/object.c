/* The object that is loaded in front of a program's libraries. */

#include <stdbool.h>
#include <stddef.h>

#include "actions.h"
#include "cpuid.h"
#include "emulate.h"
#include "environment.h"
#include "interpose.h"
#include "machine.h"
#include "say.h"
#include "self.h"
#include "stacks.h"

/* ---- the handler */

struct trap {
    const siginfo_t *info;
    ucontext_t *context;
    struct self self;
    bool taken;
};

static void take(void *argument)
{
    struct trap *t = argument;
    if (t->info->si_signo == SIGILL)
        t->taken = t->info->si_code > 0 && emulate(t->context, &t->self);
    else
        t->taken = t->info->si_code == SI_KERNEL && answer_cpuid(t->context, &t->self);
}

/* A program may have the processor check that its words are aligned; ours are not. */
static void allow_unaligned(void)
{
    __asm__ volatile("pushfq\n\tandq $~0x40000, (%%rsp)\n\tpopfq" : : : "cc", "memory");
}

/* The program's own handlers run where the signal came in, and not on the stack for the library: they may leave by a jump. */
static void handle(int signal, siginfo_t *info, void *context)
{
    allow_unaligned();
    struct trap trap = {.info = info, .context = context, .self = self_now()};
    (void)signal;
    call_on_own_stack(&trap.self, take, &trap);
    if (!trap.taken)
        pass_on(info, context);
}

/* ---- the start */

static const char *variable(char **environment, const char *name)
{
    for (; *environment != NULL; environment++) {
        const char *found = *environment, *wanted = name;
        while (*wanted != '\0' && *found == *wanted)
            found++, wanted++;
        if (*wanted == '\0' && *found == '=')
            return found + 1;
    }
    return NULL;
}

/* It executes a program by itself, and its handlers see none of the registers that they are to change. */
static bool under_valgrind(const char *preloaded)
{
    static const char name[] = "vgpreload";
    for (; preloaded != NULL && *preloaded != '\0'; preloaded++) {
        size_t same = 0;
        while (name[same] != '\0' && preloaded[same] == name[same])
            same++;
        if (name[same] == '\0')
            return true;
    }
    return false;
}

/* Before the constructors of all others, and of the C library: so the environment is what it is handed. */
__attribute__((constructor)) static void start(int count, char **arguments, char **environment)
{
    const char *machine = variable(environment, ENVIRONMENT_MACHINE);
    (void)count;
    if (machine == NULL)
        return;
    if (under_valgrind(variable(environment, "LD_PRELOAD"))) {
        say_error("valgrind runs programs by itself, so no instruction is emulated", arguments[0], 0);
        return;
    }
    real();
    machine_start(machine);
    emulate_start(variable(environment, ENVIRONMENT_COUNTS), variable(environment, ENVIRONMENT_TRACE));
    stacks_start();
    actions_own(SIGILL, handle);
    if (variable(environment, ENVIRONMENT_CPUID) == NULL && cpuid_start())
        actions_own(SIGSEGV, handle);
}
