#include "cpuid.h"

#include <string.h>

#include "cpuid_fault.h"
#include "emulate.h"
#include "keylocker.h"
#include "machine.h"
#include "memory.h"

enum { EAX, EBX, ECX, EDX, CPUID_REGISTERS };
enum { LEAF_HIGHEST = 0, LEAF_FEATURES = 7, LEAF_KEY_LOCKER = 0x19 };

struct asked {
    uint32_t leaf, subleaf;
    uint8_t record[KEYLOCKER_CPU_SIZE];
    uint32_t answer[CPUID_REGISTERS]; /* the machine's */
};

/* Where it does not fault. */
static void host_cpuid(uint32_t leaf, uint32_t subleaf, uint32_t r[CPUID_REGISTERS])
{
    __asm__ volatile("cpuid" : "=a"(r[EAX]), "=b"(r[EBX]), "=c"(r[ECX]), "=d"(r[EDX]) : "0"(leaf), "2"(subleaf));
}

bool cpuid_start(void)
{
    return cpuid_faults(true);
}

static void ask_machine(uint8_t *block, void *argument)
{
    struct asked *a = argument;
    keylocker_cpuid(block, KEYLOCKER_MACHINE_SIZE, a->record, sizeof a->record, a->leaf, a->subleaf, &a->answer[EAX], &a->answer[EBX],
                    &a->answer[ECX], &a->answer[EDX]);
}

/* The host's own bits, with the machine's over them. Who asks for leaf 0x19 looks first whether there are so many; those that the host lacks before it are
 * empty. */
static void put_over(const struct asked *a, uint32_t host[CPUID_REGISTERS])
{
    uint32_t highest[CPUID_REGISTERS];
    host_cpuid(LEAF_HIGHEST, 0, highest);
    if (a->leaf == LEAF_KEY_LOCKER || (a->leaf > highest[EAX] && a->leaf < LEAF_KEY_LOCKER))
        memcpy(host, a->answer, sizeof a->answer);
    else if (a->leaf == LEAF_FEATURES && a->subleaf == 0)
        host[ECX] = (host[ECX] & ~(uint32_t)KEYLOCKER_CPUID_7_ECX_KL) | a->answer[ECX];
    else if (a->leaf == LEAF_HIGHEST && highest[EAX] < LEAF_KEY_LOCKER)
        host[EAX] = LEAF_KEY_LOCKER;
}

bool answer_cpuid(ucontext_t *context, const struct self *self)
{
    static const uint8_t string[] = {0x0F, 0xA2};
    greg_t *gregs = context->uc_mcontext.gregs;
    uint8_t bytes[sizeof string];
    if (read_code((uint64_t)gregs[REG_RIP], bytes, sizeof bytes) != sizeof bytes || memcmp(bytes, string, sizeof string) != 0)
        return false;
    struct asked a = {.leaf = (uint32_t)gregs[REG_RAX], .subleaf = (uint32_t)gregs[REG_RCX]};
    record_of(context, a.record);
    if (machine_there())
        with_machine(self, ask_machine, &a);
    uint32_t host[CPUID_REGISTERS];
    cpuid_faults(false);
    host_cpuid(a.leaf, a.subleaf, host);
    put_over(&a, host);
    cpuid_faults(true);
    gregs[REG_RAX] = host[EAX];
    gregs[REG_RBX] = host[EBX];
    gregs[REG_RCX] = host[ECX];
    gregs[REG_RDX] = host[EDX];
    gregs[REG_RIP] += sizeof string;
    return true;
}
