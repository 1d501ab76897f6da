#include "ctr_worked.h"

#include <stdlib.h>
#include <string.h>

#include "worked.h"

/* what is lent, the first thing wrong with it being what the number says; the features are none, which is 10, or all */
static const struct lent {
    size_t machine;
    uint8_t processor;
    size_t cpu;
    uint8_t cpl;
    size_t handle, counter, data;
    uint8_t features, control;
    uint32_t number;
} calls[] = {
    {923, 1, 407, 4, 47, 15, 65537, 0, C_TS, 1}, {925, 1, 407, 4, 47, 15, 65537, 0, C_TS, 1}, {924, 1, 407, 4, 47, 15, 65537, 0, C_TS, 3},
    {924, 0, 407, 4, 47, 15, 65537, 0, C_TS, 4}, {924, 0, 409, 4, 47, 15, 65537, 0, C_TS, 4}, {924, 0, 0, 4, 47, 15, 65537, 0, C_TS, 4},
    {924, 0, 408, 4, 47, 15, 65537, 0, C_TS, 5}, {924, 0, 408, 3, 47, 16, 16, 0, C_TS, 18},   {924, 0, 408, 3, 49, 16, 16, 0, C_TS, 18},
    {924, 0, 408, 3, 63, 16, 16, 0, C_TS, 18},   {924, 0, 408, 3, 65, 16, 16, 0, C_TS, 18},   {924, 0, 408, 3, 0, 16, 16, 0, C_TS, 18},
    {924, 0, 408, 3, 48, 15, 16, 0, C_TS, 18},   {924, 0, 408, 3, 48, 17, 16, 0, C_TS, 18},   {924, 0, 408, 3, 48, 0, 16, 0, C_TS, 18},
    {924, 0, 408, 3, 48, 16, 65537, 0, C_TS, 18}, {924, 0, 408, 3, 48, 16, 65536, 0, C_TS, 10}, {924, 0, 408, 3, 64, 16, 0, 0, C_TS, 10},
    {924, 0, 408, 3, 48, 16, 0, F_ALL, C_CR4_KL | C_OSFXSR | C_TS, 11},
    {924, 0, 408, 3, 64, 16, 65536, F_ALL, C_CR4_KL | C_OSFXSR | C_TS, 11},
    {924, 0, 408, 3, 48, 16, 16, F_ALL, C_CR4_KL | C_OSFXSR, 0},
    {924, 0, 408, 3, 48, 16, 0, F_KL | F_FIRMWARE, C_CR4_KL | C_OSFXSR, 0},
};

static void prepare(struct trial *t, uint8_t features, uint8_t control, size_t length)
{
    prepare_worked(t, CTR);
    memset(trial_cpu(t)->rflags, 0xFF, sizeof trial_cpu(t)->rflags);
    trial_cpu(t)->control = control;
    trial_machine(t)->features = features;
    t->call.data.length = length;
}

static bool meets_refusals(struct trial *t)
{
    bool good = true;
    for (size_t i = 0; i < sizeof calls / sizeof *calls; i++) {
        prepare(t, calls[i].features, calls[i].control, calls[i].data);
        lend_worked(t, calls[i].machine, calls[i].processor, calls[i].cpu, calls[i].cpl);
        t->call.handle.length = calls[i].handle;
        t->call.counter.length = calls[i].counter;
        good &= worked_answers(t, calls[i].number, &(struct wanted){0});
    }
    return good;
}

/* 10 as of the single form, and then 11; the wide bit, the backup's and those of LOADIWKEY do not count */
static uint32_t fault_of(uint8_t features, uint8_t control)
{
    bool defined = features & F_KL && features & F_FIRMWARE && control & C_CR4_KL && control & C_OSFXSR && !(control & C_EM);
    return !defined ? 10 : control & C_TS ? 11 : 0;
}

static bool meets_states(struct trial *t)
{
    bool good = true;
    for (uint8_t features = 0; features <= F_ALL; features++)
        for (uint8_t control = 0; control <= C_ALL; control++)
            for (uint8_t cpl = 0; cpl < 4; cpl++) {
                prepare(t, features, control, 17);
                trial_cpu(t)->cpl = cpl;
                good &= worked_answers(t, fault_of(features, control), &(struct wanted){0});
            }
    return good;
}

/* with a counter that wraps on the way */
static bool meets_length(struct trial *t, size_t length, bool wide)
{
    prepare(t, wide ? F_ALL : F_ALL & ~F_WIDE, C_CR4_KL | C_OSFXSR, length);
    memset(t->counter_room, 0xFF, COUNTER_SIZE);
    t->counter_room[15] = 0xFA;
    return worked_answers(t, 0, &(struct wanted){0});
}

/* up to two groups of eight blocks and a little more; the longest, which take long, on one machine each */
static bool meets_lengths(struct trial *t)
{
    bool good = meets_length(t, BUFFER_LIMIT - 1, false) & meets_length(t, BUFFER_LIMIT, true);
    for (size_t length = 0; length <= 280; length++)
        good &= meets_length(t, length, false) & meets_length(t, length, true);
    return good;
}

/* zeros, which become the keystream: of a zero key and counter block a known one */
static bool meets_zero(struct trial *t)
{
    bool good = true;
    for (size_t length = 0; length <= sizeof ZERO_ENCRYPTED; length++) {
        prepare(t, F_ALL, C_CR4_KL | C_OSFXSR, length);
        memset(t->data_room, 0, length);
        good &= worked_answers(t, 0, &(struct wanted){.data = ZERO_ENCRYPTED});
    }
    return good;
}

bool library_meets_ctr(void)
{
    static struct trial trial;
    bool good = true;
    trial.data_room = calloc(1, DATA_ROOM);
    if (!trial.data_room)
        abort();
    for (size_t i = 0; i < DATA_ROOM; i++)
        trial.data_room[i] = (uint8_t)(i % 251);
    for (int null = 0; null < 2; null++) {
        trial.null_if_empty = null;
        good &= meets_refusals(&trial);
    }
    good &= meets_states(&trial) & meets_lengths(&trial) & meets_zero(&trial);
    free(trial.data_room);
    return good;
}
