#include "taken.h"

#include <stdio.h>
#include <string.h>

#include "worked.h"

/* whether there are backup and store, then pending, valid, error and consumed */
enum { STATES = 1 << 6 };

/* calls of the platform, and of processor 0 */
static const struct platform_call {
    enum call_kind kind;
    uint8_t code;
    uint32_t address;
} followers[] = {
    {.kind = SETTLE, .code = 0}, {.kind = SETTLE, .code = 1}, {.kind = SLEEP, .code = 0},           {.kind = SLEEP, .code = 1},
    {.kind = SLEEP, .code = 2},  {.kind = RESET},             {.kind = WRITE, .address = COPY_OUT}, {.kind = WRITE, .address = COPY_IN},
};

/* three keys that differ, so that each move of one shows */
static struct machine machine_of(unsigned state, uint8_t features)
{
    struct machine m = {.count = 1, .features = features, .processors = {{.iwkey.integrity = {1}}}};
    if (state & 1)
        m.backup = (struct platform_key){1, {.integrity = {2}}};
    if (state >> 1 & 1)
        m.store = (struct platform_key){1, {.integrity = {3}}};
    m.pending = state >> 2 & 1;
    m.valid = state >> 3 & 1;
    m.error = state >> 4 & 1;
    m.consumed = state >> 5 & 1;
    return m;
}

static struct machine taken(struct machine m)
{
    m.consumed = m.pending ? 1 : m.consumed;
    return m;
}

static void prepare(struct trial *t, const struct platform_call *call, struct machine m)
{
    prepare_worked(t, call->kind);
    *trial_machine(t) = m;
    t->call.code = call->code;
    t->call.address = call->address;
    t->call.value = 1;
}

/* what the library leaves; false if it touched what it may not */
static bool leaves(struct trial *t, const struct platform_call *call, struct machine m, struct machine *left)
{
    struct run library;
    prepare(t, call, m);
    run_library(t, &library);
    memcpy(left, library.machine.bytes, sizeof *left);
    if (library.touched)
        printf("worked out by hand: %s\n", library.touched);
    run_free(&library);
    return !library.touched;
}

/* The call leaves the same with a taken before it and without; only where it leaves the backup pending is that still consumed. */
static bool acts_as_before(struct trial *t, const struct platform_call *call, struct machine m)
{
    struct machine wanted;
    if (!leaves(t, call, m, &wanted))
        return false;
    if (m.pending && wanted.pending)
        wanted.consumed = 1;
    prepare(t, call, taken(m));
    return worked_answers(t, 0, &(struct wanted){.machine = &wanted});
}

static bool state_is_met(struct trial *t, unsigned state)
{
    static const uint8_t features[] = {F_ALL, 0};
    bool good = true;
    for (size_t i = 0; i < sizeof features; i++) {
        struct machine m = machine_of(state, features[i]), wanted = taken(m);
        prepare(t, &(struct platform_call){.kind = TAKEN}, m);
        good &= worked_answers(t, 0, &(struct wanted){.machine = &wanted});
    }
    for (size_t i = 0; i < sizeof followers / sizeof *followers; i++)
        good &= acts_as_before(t, &followers[i], machine_of(state, F_ALL));
    return good;
}

bool library_meets_taken(void)
{
    static struct trial trial;
    bool good = true;
    for (unsigned state = 0; state < STATES; state++)
        good &= state_is_met(&trial, state);
    return good;
}
