#include "idle.h"

#include <stdlib.h>
#include <string.h>

#include "worked.h"

/* what is lent, the first thing wrong with it being what the number says */
static const struct lent {
    size_t machine;
    uint8_t processor;
    size_t cpu;
    uint8_t cpl;
    size_t memory, random;
    uint32_t number;
} steps[] = {
    {923, 1, 407, 4, MEMORY_LIMIT + 1, 47, 1}, {925, 1, 409, 4, MEMORY_LIMIT + 1, 49, 1}, {924, 1, 407, 4, MEMORY_LIMIT + 1, 47, 3},
    {924, 0, 407, 4, MEMORY_LIMIT + 1, 47, 4}, {924, 0, 409, 4, MEMORY_LIMIT + 1, 47, 4}, {924, 0, 0, 4, MEMORY_LIMIT + 1, 47, 4},
    {924, 0, 408, 4, MEMORY_LIMIT + 1, 47, 5}, {924, 0, 408, 3, MEMORY_LIMIT + 1, 47, 6}, {924, 0, 408, 3, MEMORY_LIMIT, 1, 7},
    {924, 0, 408, 3, MEMORY_LIMIT, 47, 7},     {924, 0, 408, 3, MEMORY_LIMIT, 49, 7},     {924, 0, 408, 3, MEMORY_LIMIT, 48, 0},
    {924, 0, 408, 3, MEMORY_LIMIT, 0, 0},      {924, 0, 408, 3, 0, 48, 0},                {924, 0, 408, 3, 0, 0, 0},
};

/* beginnings of an instruction */
static const struct beginning {
    uint8_t bytes[3];
    size_t length;
} beginnings[] = {
    {{0xF0}, 1}, {{0x67}, 1}, {{0xF3}, 1}, {{0xF0, 0x67}, 2}, {{0xF0, 0xF3}, 2}, {{0x67, 0xF3}, 2}, {{0xF0, 0x67, 0xF3}, 3},
};

/* K7: no instruction leaves RIP and RFLAGS like these as they are */
static void prepare(struct trial *t, uint8_t features, uint8_t control)
{
    prepare_worked(t, STEP);
    memset(trial_cpu(t)->xmm, 0x5A, sizeof trial_cpu(t)->xmm);
    memset(trial_cpu(t)->rflags, 0xFF, sizeof trial_cpu(t)->rflags);
    store64(trial_cpu(t)->rip, 0x1000);
    trial_cpu(t)->control = control;
    trial_machine(t)->features = features;
    t->call.string.length = 0;
}

static bool meets_state(struct trial *t, uint8_t features, uint8_t control)
{
    bool good = true;
    for (uint8_t cpl = 0; cpl < 4; cpl++) {
        prepare(t, features, control);
        trial_cpu(t)->cpl = cpl;
        good &= worked_answers(t, 0, &(struct wanted){0});
    }
    return good;
}

static bool meets_states(struct trial *t)
{
    bool good = true;
    for (uint8_t features = 0; features <= F_ALL; features++)
        for (uint8_t control = 0; control <= C_ALL; control++)
            good &= meets_state(t, features, control);
    return good;
}

/* of a machine and a processor that no instruction is executed on */
static bool meets_refusals(struct trial *t)
{
    bool good = true;
    for (size_t i = 0; i < sizeof steps / sizeof *steps; i++) {
        prepare(t, 0, C_EM | C_TS);
        lend_worked(t, steps[i].machine, steps[i].processor, steps[i].cpu, steps[i].cpl);
        t->call.memory.length = steps[i].memory;
        t->call.random.length = steps[i].random;
        good &= worked_answers(t, steps[i].number, &(struct wanted){0});
    }
    return good;
}

static bool meets_beginnings(struct trial *t)
{
    bool good = true;
    for (size_t i = 0; i < sizeof beginnings / sizeof *beginnings; i++) {
        prepare(t, 0, C_EM | C_TS);
        memcpy(t->string_room, beginnings[i].bytes, beginnings[i].length);
        t->call.string.length = beginnings[i].length;
        good &= worked_answers(t, 9, &(struct wanted){0});
    }
    return good;
}

bool library_meets_idle(void)
{
    static struct trial trial;
    bool good = true;
    trial.memory_room = calloc(1, MEMORY_LIMIT + 1);
    if (!trial.memory_room)
        abort();
    for (int null = 0; null < 2; null++) {
        trial.null_if_empty = null;
        good &= meets_states(&trial) & meets_refusals(&trial) & meets_beginnings(&trial);
    }
    free(trial.memory_room);
    return good;
}
