/* What CPUID answers, in words. */
#ifndef CPUID_H
#define CPUID_H

#include "simulator.h"

/* "eax" and so on. */
extern const char *const cpuid_names[CPUID_REGISTERS];

/* The four registers that the last call, a CPUID of this leaf, wrote, with the names of the bits that are set. */
void print_cpuid(struct simulator *s, uint32_t leaf);

#endif
