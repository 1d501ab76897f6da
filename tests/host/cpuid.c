#include "cpuid.h"

#include <string.h>

#include "faults.h"

static uint32_t bit(unsigned place, bool set)
{
    return set ? UINT32_C(1) << place : 0;
}

/* enabled by the operating system (CR4.KL) and by firmware */
static bool aeskle(uint8_t features, uint8_t control)
{
    bool by_system = control & C_CR4_KL || FAULT(CPUID_AESKLE_CR4);
    bool by_firmware = features & F_FIRMWARE || FAULT(CPUID_AESKLE_FIRMWARE);
    if ((FAULT(CPUID_AESKLE_EM) && control & C_EM) || (FAULT(CPUID_AESKLE_OSFXSR) && !(control & C_OSFXSR)))
        return false;
    return features & F_KL && by_system && by_firmware;
}

/* table 2-1; the emulator has all three restrictions of handles */
static void key_locker_leaf(uint8_t features, uint8_t control, uint32_t answer[LEAF_REGISTERS])
{
    bool wide = features & F_WIDE, backup = features & F_BACKUP, no_backup = features & F_NO_BACKUP, random = features & F_RANDOM;
    if (FAULT(CPUID_BACKUP_FIRMWARE))
        backup &= (features & F_FIRMWARE) != 0;
    answer[EAX] = bit(0, true) | bit(1, true) | bit(2, !FAULT(CPUID_EAX_3));
    answer[EBX] = bit(0, aeskle(features, control)) | bit(FAULT(CPUID_WIDE_BACKUP) ? 4 : 2, wide) | bit(FAULT(CPUID_WIDE_BACKUP) ? 2 : 4, backup);
    answer[ECX] = bit(FAULT(CPUID_NO_BACKUP_RANDOM) ? 1 : 0, no_backup) | bit(FAULT(CPUID_NO_BACKUP_RANDOM) ? 0 : 1, random);
}

/* Leaf 7 has subleaves, of which 0 alone has a bit; the paper writes leaf 19H without one. */
void cpuid(uint8_t features, uint8_t control, uint32_t leaf, uint32_t subleaf, uint32_t answer[LEAF_REGISTERS])
{
    memset(answer, 0, LEAF_REGISTERS * sizeof *answer);
    if (FAULT(CPUID_LEAF_BYTE))
        leaf &= 0xFF;
    if (FAULT(CPUID_LEAF_0) && leaf == 0)
        answer[EAX] = LEAF_KEY_LOCKER;
    if (leaf == LEAF_FEATURES && (subleaf == 0 || FAULT(CPUID_SUBLEAF_OF_7)))
        answer[ECX] = bit(FAULT(CPUID_BIT_22) ? 22 : 23, features & F_KL);
    if (leaf == LEAF_KEY_LOCKER && (features & F_KL || FAULT(CPUID_WITHOUT_KL)) && (subleaf == 0 || !FAULT(CPUID_SUBLEAF_OF_19)))
        key_locker_leaf(features, control, answer);
}
