#include "worked.h"

#include <stdio.h>
#include <string.h>

const uint8_t ZERO_HANDLE[48] = {
    0,    0,    0,    0,    0,    0,    0,    0,    0,    0,    0,    0,    0,    0,    0,    0,    /* AAD */
    0xDC, 0x95, 0xC0, 0x78, 0xA2, 0x40, 0x89, 0x89, 0xAD, 0x48, 0xA2, 0x14, 0x92, 0x84, 0x20, 0x87, /* tag */
    0x08, 0xC3, 0x74, 0x84, 0x8C, 0x22, 0x82, 0x33, 0xC2, 0xB3, 0x4F, 0x33, 0x2B, 0xD2, 0xE9, 0xD3, /* ciphertext */
};

/* AES-128 of a zero block under a zero key: RFC 8452, appendix A, has it as an example's first operand */
const uint8_t ZERO_ENCRYPTED[16] = {0x66, 0xE9, 0x4B, 0xD4, 0xEF, 0x8A, 0x2C, 0x3B, 0x88, 0x4C, 0xFA, 0x59, 0xCA, 0x34, 0x2B, 0x2E};

const struct wanted ENCRYPTED = {.xmm = ZERO_ENCRYPTED, .xmm_length = sizeof ZERO_ENCRYPTED};

static const uint8_t STRING[] = {0xF3, 0x0F, 0x38, 0xDC, 0x00}; /* aesenc128kl xmm0, [rax] */

void prepare_worked(struct trial *t, enum call_kind kind)
{
    memset(t->machine_room, 0, sizeof t->machine_room);
    memset(t->cpu_room, 0, sizeof t->cpu_room);
    memset(t->random_room, 0, sizeof t->random_room);
    memcpy(t->string_room, STRING, sizeof STRING);
    trial_machine(t)->count = 1;
    trial_machine(t)->features = F_ALL;
    trial_cpu(t)->control = C_CR4_KL | C_OSFXSR;
    t->machine = (struct buffer){t->machine_room, 924};
    t->call = (struct call){.kind = kind, .count = 1, .features = F_ALL, .address = kind == READ ? BACKUP_STATUS : COPY_OUT, .leaf = 0x19};
    memset(t->leaf_before, 0xA5, sizeof t->leaf_before);
    t->call.cpu = (struct buffer){t->cpu_room, 408};
    t->call.memory = (struct buffer){t->memory_room, 0};
    t->call.random = (struct buffer){t->random_room, 0};
    t->call.string = (struct buffer){t->string_room, sizeof STRING};
    memcpy(t->handle_room, ZERO_HANDLE, sizeof ZERO_HANDLE);
    memset(t->counter_room, 0, sizeof t->counter_room);
    t->call.handle = (struct buffer){t->handle_room, sizeof ZERO_HANDLE};
    t->call.counter = (struct buffer){t->counter_room, COUNTER_SIZE};
    t->call.data = (struct buffer){t->data_room, 0};
    t->spoils[0] = t->spoils[1] = -1;
}

void lend_worked(struct trial *t, size_t machine, uint8_t processor, size_t cpu, uint8_t cpl)
{
    t->machine.length = machine;
    t->call.processor = processor;
    t->call.cpu.length = cpu;
    trial_cpu(t)->cpl = cpl;
}

static bool leaf_differs(const struct results *results, const uint32_t *leaf)
{
    for (int i = 0; i < LEAF_REGISTERS; i++)
        if (*results->leaf[i] != leaf[i])
            return true;
    return false;
}

/* of a call that is done */
static const char *wanted_differs(const struct trial *t, const struct run *library, const struct wanted *wanted)
{
    const struct cpu *before = (const struct cpu *)t->call.cpu.bytes, *after = (const struct cpu *)library->call.cpu.bytes;
    if (t->call.kind == STEP && load64(after->rip) != load64(before->rip) + t->call.string.length)
        return "RIP does not stand behind the string";
    if (wanted->machine && memcmp(library->machine.bytes, wanted->machine, sizeof *wanted->machine) != 0)
        return "the machine is not what is wanted";
    if (wanted->xmm && memcmp(after->xmm, wanted->xmm, wanted->xmm_length) != 0)
        return "XMM0 and up do not hold what is wanted";
    if (wanted->data && memcmp(library->call.data.bytes, wanted->data, library->call.data.length) != 0)
        return "the data is not what is wanted";
    return wanted->leaf && leaf_differs(&library->results, wanted->leaf) ? "CPUID gives another leaf" : NULL;
}

bool worked_answers(struct trial *t, uint32_t number, const struct wanted *wanted)
{
    struct run library, model;
    t->meant = number;
    run_library(t, &library);
    run_model(t, &model);
    const char *differs = difference(t, &library, &model);
    if (!differs && number == 0)
        differs = wanted_differs(t, &library, wanted);
    if (differs) {
        printf("worked out by hand: %s\n", differs);
        report(t, &library, &model);
    }
    run_free(&library);
    run_free(&model);
    return !differs;
}
