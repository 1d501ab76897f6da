#include "lengths.h"

#include <stdlib.h>
#include <string.h>

#include "worked.h"

/* steps on a machine of 924 bytes, the last handle of the largest memory at 1,048,528 */
static const struct lengths {
    size_t cpu, memory, random;
    uint64_t rax;
    uint32_t number;
} steps[] = {
    {408, 1048576, 0, 1048528, 0},
    {408, 1048576, 48, 1048528, 0},
    {408, 1048576, 0, 1048529, 14},
    {407, 1048576, 0, 1048528, 4},
    {409, 1048576, 0, 1048528, 4},
    {408, 1048577, 0, 1048528, 6},
    {408, 1048576, 47, 1048528, 7},
    {408, 1048576, 49, 1048528, 7},
    {407, 1048577, 0, 1048528, 4},  /* 4 and 6 */
    {408, 1048577, 47, 1048528, 6}, /* 6 and 7 */
};

/* CPUID: what lengths, features, CPL and control byte make of a leaf and subleaf */
static const struct identified {
    size_t machine, cpu;
    uint8_t features, cpl, control;
    uint32_t leaf, subleaf, number;
    uint32_t answer[LEAF_REGISTERS];
} identified[] = {
    {924, 408, 0x3F, 0, 0x03, 7, 0, 0, {0, 0, 0x800000, 0}},
    {924, 408, 0x01, 3, 0x00, 7, 0, 0, {0, 0, 0x800000, 0}},
    {924, 408, 0x3F, 0, 0x03, 0x19, 0, 0, {7, 0x15, 3, 0}},
    {924, 408, 0x3F, 3, 0x0D, 0x19, 0xFFFFFFFF, 0, {7, 0x15, 3, 0}}, /* any CPL, CR0.EM, CR0.TS, no CR4.OSFXSR */
    {924, 408, 0x3F, 0, 0x02, 0x19, 0, 0, {7, 0x14, 3, 0}},          /* no CR4.KL */
    {924, 408, 0x3D, 0, 0x03, 0x19, 0, 0, {7, 0x14, 3, 0}},          /* a feature less each */
    {924, 408, 0x3B, 0, 0x03, 0x19, 0, 0, {7, 0x11, 3, 0}},
    {924, 408, 0x37, 0, 0x03, 0x19, 0, 0, {7, 0x05, 3, 0}},
    {924, 408, 0x2F, 0, 0x03, 0x19, 0, 0, {7, 0x15, 2, 0}},
    {924, 408, 0x1F, 0, 0x03, 0x19, 0, 0, {7, 0x15, 1, 0}},
    {924, 408, 0x3E, 0, 0x03, 0x19, 0, 0, {0}},
    {924, 408, 0x3E, 0, 0x03, 7, 0, 0, {0}},
    {924, 408, 0x3F, 0, 0x03, 7, 1, 0, {0}},
    {924, 408, 0x3F, 0, 0x03, 0, 0, 0, {0}},
    {924, 407, 0x3F, 0, 0x03, 7, 0, 4, {0}},
    {924, 409, 0x3F, 0, 0x03, 7, 0, 4, {0}},
    {924, 0, 0x3F, 0, 0x03, 7, 0, 4, {0}},
    {924, 408, 0x3F, 4, 0x03, 7, 0, 5, {0}},
    {924, 408, 0x3F, 0, 0x13, 7, 0, 5, {0}},
    {925, 407, 0x3F, 0, 0x03, 7, 0, 1, {0}}, /* 1 and 4 */
    {923, 408, 0x3F, 4, 0x03, 7, 0, 1, {0}}, /* 1 and 5 */
    {924, 409, 0x3F, 4, 0x03, 7, 0, 4, {0}}, /* 4 and 5 */
};

/* Every call takes a machine of 924 bytes, and no other length; for settle and sleep an unknown code stands behind that. */
static bool machine_lengths(struct trial *t)
{
    bool good = true;
    for (int kind = 0; kind < CALL_KINDS; kind++)
        for (size_t length = 923; length <= 925; length++) {
            prepare_worked(t, kind);
            t->machine.length = length;
            t->call.memory.length = MEMORY_LIMIT;
            store64(trial_cpu(t)->registers[RAX], MEMORY_LIMIT - sizeof ZERO_HANDLE);
            t->call.code = length == 924 ? 0 : 3;
            good &= worked_answers(t, length == 924 ? 0 : 1, kind == STEP ? &ENCRYPTED : &(struct wanted){0});
        }
    return good;
}

static bool step_lengths(struct trial *t)
{
    bool good = true;
    for (size_t i = 0; i < sizeof steps / sizeof *steps; i++) {
        prepare_worked(t, STEP);
        t->call.cpu.length = steps[i].cpu;
        t->call.memory.length = steps[i].memory;
        t->call.random.length = steps[i].random;
        store64(trial_cpu(t)->registers[RAX], steps[i].rax);
        good &= worked_answers(t, steps[i].number, &ENCRYPTED);
    }
    return good;
}

static bool cpuid_lengths(struct trial *t)
{
    bool good = true;
    for (size_t i = 0; i < sizeof identified / sizeof *identified; i++) {
        const struct identified *wanted = &identified[i];
        prepare_worked(t, CPUID);
        t->machine.length = wanted->machine;
        trial_machine(t)->features = wanted->features;
        t->call.cpu.length = wanted->cpu;
        trial_cpu(t)->cpl = wanted->cpl;
        trial_cpu(t)->control = wanted->control;
        t->call.leaf = wanted->leaf;
        t->call.subleaf = wanted->subleaf;
        good &= worked_answers(t, wanted->number, &(struct wanted){.leaf = wanted->answer});
    }
    return good;
}

bool library_meets_lengths(void)
{
    static struct trial trial;
    trial.memory_room = calloc(1, MEMORY_LIMIT + 1);
    if (!trial.memory_room)
        abort();
    memcpy(trial.memory_room + MEMORY_LIMIT - sizeof ZERO_HANDLE, ZERO_HANDLE, sizeof ZERO_HANDLE);
    bool good = machine_lengths(&trial);
    good &= step_lengths(&trial);
    good &= cpuid_lengths(&trial);
    free(trial.memory_room);
    return good;
}
