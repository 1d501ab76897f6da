/* A job asks CPUID before it encodes a key: first where the operating system has not set CR4.KL, and it goes no further; then where it has. */
#include <keylocker.h>
#include <stdio.h>
#include <string.h>

static uint8_t machine[KEYLOCKER_MACHINE_SIZE], cpu[KEYLOCKER_CPU_SIZE];

/* Whether encodes and uses are enabled. Leaf 0x19 tells, where leaf 7 tells that there is Key Locker. */
static int probe(void)
{
    uint32_t eax, ebx, ecx, edx, answer = keylocker_cpuid(machine, sizeof machine, cpu, sizeof cpu, 7, 0, &eax, &ebx, &ecx, &edx);
    if (answer != KEYLOCKER_DONE || !(ecx & KEYLOCKER_CPUID_7_ECX_KL))
        return puts("no Key Locker"), 0;
    answer = keylocker_cpuid(machine, sizeof machine, cpu, sizeof cpu, 0x19, 0, &eax, &ebx, &ecx, &edx);
    if (answer != KEYLOCKER_DONE || !(ebx & KEYLOCKER_CPUID_19_EBX_AESKLE))
        return puts("Key Locker, not enabled"), 0;
    printf("Key Locker, enabled; wide forms: %s\n", ebx & KEYLOCKER_CPUID_19_EBX_WIDE_KL ? "yes" : "no");
    return 1;
}

/* One instruction on processor 0; whether it was done and left ZF 0. */
static int step(const uint8_t *string, size_t len)
{
    uint32_t answer = keylocker_step(machine, sizeof machine, 0, cpu, sizeof cpu, NULL, 0, NULL, 0, string, len);
    return answer == KEYLOCKER_DONE && !keylocker_get_zf(cpu);
}

int main(void)
{
    static const uint8_t loadiwkey[] = {0xF3, 0x0F, 0x38, 0xDC, 0xD1};    /* loadiwkey xmm2, xmm1 */
    static const uint8_t encodekey128[] = {0xF3, 0x0F, 0x38, 0xFA, 0xC1}; /* encodekey128 eax, ecx */
    uint8_t *xmm0 = cpu + KEYLOCKER_CPU_XMM;

    keylocker_power_on(machine, sizeof machine, 1, KEYLOCKER_FEATURE_ALL);
    cpu[KEYLOCKER_CPU_CONTROL] = KEYLOCKER_CONTROL_CR4_OSFXSR;
    if (probe())
        return 1;

    cpu[KEYLOCKER_CPU_CONTROL] |= KEYLOCKER_CONTROL_CR4_KL; /* the operating system's part: CR4.KL, and the IWKey as in seal.c */
    memset(xmm0, 0x5A, 3 * 16);
    if (!step(loadiwkey, sizeof loadiwkey))
        return 1;

    cpu[KEYLOCKER_CPU_CPL] = 3; /* the job's part: the probe, then its key; ECX is 0, no restrictions */
    memset(xmm0, 0x2B, 16);
    if (!probe() || !step(encodekey128, sizeof encodekey128))
        return 1;
    for (int i = 0; i < KEYLOCKER_HANDLE_128_SIZE; i++)
        printf("%02x", xmm0[i]);
    printf("\n");
    return 0;
}
