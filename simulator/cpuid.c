#include "cpuid.h"

#include <inttypes.h>

#include "answer.h"

const char *const cpuid_names[] = {[EAX] = "eax", [EBX] = "ebx", [ECX] = "ecx", [EDX] = "edx"};

/* Intel's names, and where it has none those that the trace has for restrictions and features. */
static const struct {
    uint32_t leaf;
    int place;
    uint32_t bit;
    const char *name;
} bits[] = {
    {0x07, ECX, KEYLOCKER_CPUID_7_ECX_KL, "KL"},
    {0x19, EAX, KEYLOCKER_CPUID_19_EAX_CPL0_ONLY, "cpl0-only"},
    {0x19, EAX, KEYLOCKER_CPUID_19_EAX_NO_ENCRYPT, "no-encrypt"},
    {0x19, EAX, KEYLOCKER_CPUID_19_EAX_NO_DECRYPT, "no-decrypt"},
    {0x19, EBX, KEYLOCKER_CPUID_19_EBX_AESKLE, "AESKLE"},
    {0x19, EBX, KEYLOCKER_CPUID_19_EBX_WIDE_KL, "WIDE_KL"},
    {0x19, EBX, KEYLOCKER_CPUID_19_EBX_BACKUP, "backup"},
    {0x19, ECX, KEYLOCKER_CPUID_19_ECX_NO_BACKUP, "no-backup"},
    {0x19, ECX, KEYLOCKER_CPUID_19_ECX_RANDOM, "random"},
};

static void add_register(struct simulator *s, uint32_t leaf, int place)
{
    uint32_t value = s->last.cpuid[place];
    const char *before = " (";
    add_answer(s, "%s 0x%" PRIx32, cpuid_names[place], value);
    for (size_t i = 0; i < sizeof bits / sizeof *bits; i++) {
        if (bits[i].leaf != leaf || bits[i].place != place || !(value & bits[i].bit))
            continue;
        add_answer(s, "%s%s", before, bits[i].name);
        before = ", ";
    }
    add_answer(s, "%s", before[0] == ',' ? ")" : "");
}

void print_cpuid(struct simulator *s, uint32_t leaf)
{
    add_answer(s, "0 done: ");
    for (int place = 0; place < CPUID_REGISTERS; place++) {
        add_answer(s, "%s", place == 0 ? "" : ", ");
        add_register(s, leaf, place);
    }
    end_answer(s);
}
