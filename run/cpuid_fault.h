/* Whether the processor and the kernel can make CPUID fault. */
#ifndef CPUID_FAULT_H
#define CPUID_FAULT_H

#include <asm/prctl.h>
#include <stdbool.h>

#include "system.h"

#ifndef ARCH_SET_CPUID
#define ARCH_SET_CPUID 0x1012
#endif

/* Makes it fault in this thread and in those that come from it, or not. False where that cannot be done. */
static inline bool cpuid_faults(bool faults)
{
    return SYSTEM(SYS_arch_prctl, ARCH_SET_CPUID, !faults) == 0;
}

static inline bool cpuid_can_fault(void)
{
    return cpuid_faults(true) && cpuid_faults(false);
}

#endif
