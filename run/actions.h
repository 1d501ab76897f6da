/* The program's own actions for the signals that are taken here. The kernel has ours; what the program asks for is kept, told it, and done where a signal is
 * not for us. */
#ifndef ACTIONS_H
#define ACTIONS_H

#include <stdbool.h>

#include "signals.h"

/* From now on the handler has this signal; what the program was started with is its own action. */
void actions_own(int signal, void (*handler)(int signal, siginfo_t *info, void *context));
bool actions_owned(int signal);

/* Without those that are owned: a processor that has the instructions executes them whatever is blocked. */
uint64_t actions_mask(uint64_t set);

/* The program's action, and another in its place where one is given. */
void actions_exchange(int signal, const struct sigaction *action, struct sigaction *old);

/* Does, in the handler, what the program has for a signal. */
void pass_on(siginfo_t *info, ucontext_t *context);

/* The program gets another signal behind the handler, as from the processor: one that is blocked or ignored ends it. */
void send_fault(const siginfo_t *info, ucontext_t *context);

#endif
