/* CPUID, on hosts that can make it fault: the program sees a processor that has Key Locker. */
#ifndef CPUID_H
#define CPUID_H

#include <stdbool.h>
#include <ucontext.h>

#include "self.h"

/* From now on CPUID is #GP in this process; false where the host cannot do that. The kernel takes it back when another program is executed. */
bool cpuid_start(void);

/* In the handler, behind a #GP: whether it was CPUID, which is then answered. */
bool answer_cpuid(ucontext_t *context, const struct self *self);

#endif
