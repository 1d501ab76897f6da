/* CPUID: chapter 2 of 343965-001US, answered from the feature byte and CR4.KL. */
#ifndef CPUID_H
#define CPUID_H

#include "records.h"

enum { LEAF_FEATURES = 7, LEAF_KEY_LOCKER = 0x19 };

/* on a processor with these control bits; all that the chapter does not name is 0 */
void cpuid(uint8_t features, uint8_t control, uint32_t leaf, uint32_t subleaf, uint32_t answer[LEAF_REGISTERS]);

#endif
