#include "compare.h"

#include <inttypes.h>
#include <stdio.h>
#include <string.h>

#include "faults.h"
#include "keylocker.h"
#include "lend.h"
#include "machine.h"
#include "spoil.h"

const uint64_t VALUE_BEFORE = UINT64_C(0xA5C3960F1E2D4B78);

const char *const call_names[CALL_KINDS] = {"power-on", "step", "read", "write", "settle", "sleep", "reset", "taken", "cpuid", "ctr"};

static const char *const leaf_names[LEAF_REGISTERS] = {"EAX", "EBX", "ECX", "EDX"};

/* Of no bytes it is a null pointer, or one that nothing may be touched behind. Without a name it is for the model. */
static struct buffer lent_copy(const struct trial *t, const char *name, struct buffer from)
{
    if (from.length == 0 && t->null_if_empty)
        return (struct buffer){NULL, 0};
    return (struct buffer){lend(name, from.bytes, from.length), from.length};
}

/* each result is a place of its own, so that one that is written wider than it is shows; what the call does not take is not guarded */
static void lend_results(const struct trial *t, bool library, struct results *results)
{
    results->value = lend_number(library && t->call.kind == READ ? "value" : NULL, sizeof *results->value);
    *results->value = VALUE_BEFORE;
    for (int i = 0; i < LEAF_REGISTERS; i++) {
        results->leaf[i] = lend_number(library && t->call.kind == CPUID ? leaf_names[i] : NULL, sizeof *results->leaf[i]);
        *results->leaf[i] = t->leaf_before[i];
    }
}

/* what a call may write */
static void copy_written(const struct trial *t, bool library, struct run *run)
{
    run->call = t->call;
    run->machine = lent_copy(t, library ? "machine" : NULL, t->machine);
    run->call.cpu = lent_copy(t, library ? "CPU record" : NULL, t->call.cpu);
    run->call.data = lent_copy(t, library ? "data" : NULL, t->call.data);
    lend_results(t, library, &run->results);
    run->number = UNANSWERED;
    run->touched = NULL;
}

static uint32_t library_call(struct run *r)
{
    const struct call *c = &r->call;
    switch (c->kind) {
    case POWER_ON:
        return keylocker_power_on(r->machine.bytes, r->machine.length, c->count, c->features);
    case STEP:
        return keylocker_step(r->machine.bytes, r->machine.length, c->processor, c->cpu.bytes, c->cpu.length, c->memory.bytes, c->memory.length,
                              c->random.bytes, c->random.length, c->string.bytes, c->string.length);
    case READ:
        return keylocker_read(r->machine.bytes, r->machine.length, c->processor, c->cpl, c->address, r->results.value);
    case WRITE:
        return keylocker_write(r->machine.bytes, r->machine.length, c->processor, c->cpl, c->address, c->value);
    case SETTLE:
        return keylocker_settle(r->machine.bytes, r->machine.length, c->code);
    case SLEEP:
        return keylocker_sleep(r->machine.bytes, r->machine.length, c->code);
    case TAKEN:
        return keylocker_taken(r->machine.bytes, r->machine.length);
    case CPUID:
        return keylocker_cpuid(r->machine.bytes, r->machine.length, c->cpu.bytes, c->cpu.length, c->leaf, c->subleaf, r->results.leaf[EAX],
                               r->results.leaf[EBX], r->results.leaf[ECX], r->results.leaf[EDX]);
    case CTR:
        return keylocker_ctr(r->machine.bytes, r->machine.length, c->processor, c->cpu.bytes, c->cpu.length, c->handle.bytes, c->handle.length,
                             c->counter.bytes, c->counter.length, c->data.bytes, c->data.length);
    default:
        return keylocker_reset(r->machine.bytes, r->machine.length);
    }
}

void misuse_lent(struct buffer lent, bool behind, bool before, bool rewritten)
{
    volatile uint8_t *bytes = lent.bytes, read = 0;
    if (behind && lent.length)
        read = bytes[lent.length];
    if (before && lent.length)
        read = bytes[-1];
    if (rewritten && lent.length)
        bytes[lent.length - 1] = lent.bytes[lent.length - 1];
    (void)read;
}

/* What the comparison has to see, done in the library's stead. */
static void misuse(struct run *r)
{
    struct call *c = &r->call;
    if (FAULT(MEMORY_WRITTEN) && c->memory.length)
        c->memory.bytes[c->memory.length - 1] ^= 1;
    if (FAULT(RANDOM_WRITTEN) && c->random.length)
        c->random.bytes[0] ^= 1;
    if (FAULT(STRING_WRITTEN) && c->string.length)
        c->string.bytes[c->string.length - 1] ^= 1;
    if (FAULT(REFUSED_WRITES_MACHINE) && r->number && r->machine.length)
        r->machine.bytes[r->machine.length - 1] ^= 1;
    if (FAULT(REFUSED_WRITES_CPU) && r->number && c->cpu.length)
        c->cpu.bytes[c->cpu.length - 1] ^= 1;
    if (FAULT(REFUSED_WRITES_VALUE) && r->number)
        *r->results.value = 0;
    if (FAULT(REFUSED_WRITES_EDX) && r->number && c->kind == CPUID)
        *r->results.leaf[EDX] = 0;
    if (FAULT(CPUID_WRITES_MACHINE) && c->kind == CPUID && r->machine.length)
        r->machine.bytes[r->machine.length - 1] ^= 1;
    if (FAULT(TAKEN_REFUSED_WRITES) && c->kind == TAKEN && r->number && r->machine.length)
        r->machine.bytes[r->machine.length - 1] = 1;
}

/* the same for the buffers of a counter call */
static void misuse_ctr(struct run *r)
{
    struct call *c = &r->call;
    if (FAULT(CTR_REFUSED_WRITES) && r->number && c->data.length)
        c->data.bytes[c->data.length - 1] ^= 1;
    if (FAULT(CTR_COUNTER_WRITTEN) && c->counter.length)
        c->counter.bytes[c->counter.length - 1]++;
    if (FAULT(CTR_HANDLE_WRITTEN) && c->handle.length)
        c->handle.bytes[0] ^= 1;
}

/* What valgrind and guards have to see: neither the answer nor what is left differs. */
static void misuse_quietly(struct run *r)
{
    struct call *c = &r->call;
    bool machine = (FAULT(REWRITES_MACHINE) && r->number) || (FAULT(REWRITES_MACHINE_READ) && c->kind == READ) ||
                   (FAULT(REWRITES_MACHINE_CTR) && c->kind == CTR);
    bool cpu = (FAULT(REWRITES_CPU) && r->number) || (FAULT(REWRITES_CPU_CPUID) && c->kind == CPUID);
    misuse_lent(r->machine, FAULT(BEHIND_MACHINE), FAULT(BEFORE_MACHINE), machine);
    misuse_lent(c->cpu, FAULT(BEHIND_CPU) || (FAULT(BEHIND_CPUID) && c->kind == CPUID), FAULT(BEFORE_CPU), cpu);
    misuse_lent(c->memory, FAULT(BEHIND_MEMORY), FAULT(BEFORE_MEMORY), FAULT(REWRITES_MEMORY));
    misuse_lent(c->random, FAULT(BEHIND_RANDOM), FAULT(BEFORE_RANDOM), FAULT(REWRITES_RANDOM));
    misuse_lent(c->string, FAULT(BEHIND_STRING), FAULT(BEFORE_STRING), FAULT(REWRITES_STRING));
    misuse_lent(c->handle, FAULT(BEHIND_HANDLE), FAULT(BEFORE_HANDLE), FAULT(REWRITES_HANDLE));
    misuse_lent(c->counter, FAULT(BEHIND_COUNTER), FAULT(BEFORE_COUNTER), FAULT(REWRITES_COUNTER));
    misuse_lent(c->data, FAULT(BEHIND_DATA), FAULT(BEFORE_DATA), FAULT(REWRITES_DATA) && r->number);
    if (FAULT(BESIDE_MACHINE) && !r->number && c->kind == SETTLE && (uintptr_t)r->machine.bytes % 4096)
        r->machine.bytes[-1] = 0;
    if (FAULT(REWRITES_VALUE) && r->number)
        *(volatile uint64_t *)r->results.value = *r->results.value;
    if (FAULT(REWRITES_EDX) && r->number)
        *(volatile uint32_t *)r->results.leaf[EDX] = *r->results.leaf[EDX];
}

static void make_call(void *argument)
{
    struct run *r = argument;
    r->number = library_call(r);
    if (FAULTY)
        misuse(r);
    if (FAULTY && r->call.kind == CTR)
        misuse_ctr(r);
    if (FAULTY)
        misuse_quietly(r);
}

/* What keylocker.h says is never written, and all else too where the model says that the call is refused. */
static void lend_unwritten(const struct trial *t, const struct run *run)
{
    const struct call *c = &run->call;
    struct run model;
    run_model(t, &model);
    bool refused = model.number != KEYLOCKER_DONE;
    run_free(&model);
    const void *never[] = {c->memory.bytes, c->random.bytes, c->string.bytes, c->handle.bytes, c->counter.bytes};
    const void *done[] = {c->data.bytes, run->results.value, run->results.leaf[EAX], run->results.leaf[EBX], run->results.leaf[ECX],
                          run->results.leaf[EDX]};
    for (size_t i = 0; i < sizeof never / sizeof *never; i++)
        lend_read_only(never[i]);
    for (size_t i = 0; refused && i < sizeof done / sizeof *done; i++)
        lend_read_only(done[i]);
    if (refused || c->kind == READ || c->kind == CPUID || c->kind == CTR)
        lend_read_only(run->machine.bytes);
    if (refused || c->kind == CPUID)
        lend_read_only(c->cpu.bytes);
}

void run_library(const struct trial *t, struct run *run)
{
    copy_written(t, true, run);
    run->call.memory = lent_copy(t, "memory", t->call.memory);
    run->call.random = lent_copy(t, "random data", t->call.random);
    run->call.string = lent_copy(t, "string", t->call.string);
    run->call.handle = lent_copy(t, "handle", t->call.handle);
    run->call.counter = lent_copy(t, "counter block", t->call.counter);
    if (lends_guarded())
        lend_unwritten(t, run);
    run->touched = touched_by(make_call, run);
}

/* The model only reads memory, random data, string, handle and counter block: it is lent the trial's own. */
void run_model(const struct trial *t, struct run *run)
{
    copy_written(t, false, run);
    run->number = model_call(run->machine, &run->call, &run->results);
    run->call.memory.bytes = run->call.random.bytes = run->call.string.bytes = NULL;
    run->call.handle.bytes = run->call.counter.bytes = NULL;
}

void run_free(struct run *run)
{
    take_back(run->machine.bytes);
    take_back(run->call.cpu.bytes);
    take_back(run->call.memory.bytes);
    take_back(run->call.random.bytes);
    take_back(run->call.string.bytes);
    take_back(run->call.handle.bytes);
    take_back(run->call.counter.bytes);
    take_back(run->call.data.bytes);
    take_back(run->results.value);
    for (int i = 0; i < LEAF_REGISTERS; i++)
        take_back(run->results.leaf[i]);
}

bool same(struct buffer a, struct buffer b)
{
    return a.length == b.length && (a.length == 0 || memcmp(a.bytes, b.bytes, a.length) == 0);
}

static bool same_results(const struct results *a, const struct results *b)
{
    for (int i = 0; i < LEAF_REGISTERS; i++)
        if (*a->leaf[i] != *b->leaf[i])
            return false;
    return *a->value == *b->value;
}

static bool results_as_before(const struct trial *t, const struct results *results)
{
    for (int i = 0; i < LEAF_REGISTERS; i++)
        if (*results->leaf[i] != t->leaf_before[i])
            return false;
    return *results->value == VALUE_BEFORE;
}

/* whether the CPU record is as before in all but RFLAGS */
static bool flags_alone(const struct trial *t, const struct run *library)
{
    struct cpu before, after;
    if (library->number)
        return same(library->call.cpu, t->call.cpu);
    memcpy(&before, t->call.cpu.bytes, sizeof before);
    memcpy(&after, library->call.cpu.bytes, sizeof after);
    memcpy(after.rflags, before.rflags, sizeof after.rflags);
    return memcmp(&before, &after, sizeof before) == 0;
}

/* what a counter call is lent, and what it leaves */
static const char *ctr_difference(const struct trial *t, const struct run *library, const struct run *model)
{
    bool data_kept = same(library->call.data, t->call.data);
    if (!same(library->call.data, model->call.data))
        return "data";
    if (!same(library->call.handle, t->call.handle) || !same(library->call.counter, t->call.counter))
        return "handle or counter block written";
    if (library->number && !data_kept)
        return "a refused counter call wrote the data";
    if (!same(library->machine, t->machine) || !flags_alone(t, library))
        return "a counter call wrote the machine, or more of the CPU record than RFLAGS";
    return !library->number && load64(((const struct cpu *)library->call.cpu.bytes)->rflags) & ZF && !data_kept ? "data written with ZF 1" : NULL;
}

const char *difference(const struct trial *t, const struct run *library, const struct run *model)
{
    bool machine_kept = same(library->machine, t->machine), cpu_kept = same(library->call.cpu, t->call.cpu);
    if (library->touched)
        return library->touched;
    if (library->number != model->number)
        return "number";
    if (!same(library->machine, model->machine))
        return "machine";
    if (!same(library->call.cpu, model->call.cpu))
        return "CPU record";
    if (!same_results(&library->results, &model->results))
        return t->call.kind == CPUID ? "a register of CPUID" : "value";
    if (!same(library->call.memory, t->call.memory) || !same(library->call.random, t->call.random) || !same(library->call.string, t->call.string))
        return "memory, random data or string written";
    if (library->number && (!machine_kept || !cpu_kept || !results_as_before(t, &library->results)))
        return "a refused call wrote";
    if (t->call.kind == READ && !machine_kept)
        return "a read wrote the machine";
    if (t->call.kind == CPUID && (!machine_kept || !cpu_kept))
        return "CPUID wrote the machine or the CPU record";
    if (is_idle(&t->call) && (!machine_kept || !cpu_kept))
        return "an idle step wrote the machine or the CPU record";
    if (t->meant != ANY_NUMBER && library->number != t->meant)
        return "not the number that the call was made for";
    return t->call.kind == CTR ? ctr_difference(t, library, model) : NULL;
}

/* ---- reports ---- */

void print_buffer(const char *name, struct buffer buffer)
{
    printf("  %s (%zu bytes)", name, buffer.length);
    for (size_t i = 0; i < buffer.length; i++) {
        if (buffer.length > 1200 && i == 512) {
            printf("\n    ...");
            i = buffer.length - 512;
        }
        printf(i % 48 == 0 ? "\n    %02x" : "%02x", buffer.bytes[i]);
    }
    printf("\n");
}

void print_first_difference(const char *name, struct buffer before, struct buffer library, struct buffer model)
{
    for (size_t i = 0; i < library.length; i++)
        if (library.bytes[i] != model.bytes[i]) {
            printf("  %s: first difference at byte %zu: before %02x, library %02x, model %02x\n", name, i, before.bytes[i], library.bytes[i],
                   model.bytes[i]);
            print_buffer("after, library", library);
            print_buffer("after, model", model);
            return;
        }
}

static void print_arguments(const struct trial *t)
{
    const struct call *c = &t->call;
    printf("  machine %u%s%s\n", t->machine_number, t->carried ? "" : ", on a copy", t->made ? ", record made by hand" : "");
    for (int i = 0; i < 2; i++)
        if (t->spoils[i] >= 0)
            printf("  spoiled: %s (%u)\n", spoils[t->spoils[i]].reason, spoils[t->spoils[i]].number);
    printf("  count %u, features 0x%02x, processor %u, cpl %u, ", c->count, c->features, c->processor, c->cpl);
    printf("address 0x%" PRIx32 ", value 0x%" PRIx64 ", code %u, ", c->address, c->value, c->code);
    printf("leaf 0x%" PRIx32 ", subleaf 0x%" PRIx32 "\n", c->leaf, c->subleaf);
    print_buffer("machine", t->machine);
    if (c->kind == STEP || c->kind == CPUID || c->kind == CTR)
        print_buffer("CPU record", c->cpu);
    if (c->kind == CTR) {
        print_buffer("handle", c->handle);
        print_buffer("counter block", c->counter);
        print_buffer("data", c->data);
    }
    if (c->kind != STEP)
        return;
    print_buffer("memory", c->memory);
    print_buffer("random data", c->random);
    print_buffer("string", c->string);
}

void report(const struct trial *t, const struct run *library, const struct run *model)
{
    printf("call: %s\n", call_names[t->call.kind]);
    print_arguments(t);
    printf("  number: library %u, model %u", library->number, model->number);
    if (t->meant != ANY_NUMBER)
        printf(", meant %u", t->meant);
    printf("\n  value: library 0x%" PRIx64 ", model 0x%" PRIx64 "\n", *library->results.value, *model->results.value);
    for (int i = 0; i < LEAF_REGISTERS; i++)
        printf("  %s: before 0x%" PRIx32 ", library 0x%" PRIx32 ", model 0x%" PRIx32 "\n", leaf_names[i], t->leaf_before[i], *library->results.leaf[i],
               *model->results.leaf[i]);
    print_first_difference("machine", t->machine, library->machine, model->machine);
    print_first_difference("CPU record", t->call.cpu, library->call.cpu, model->call.cpu);
    print_first_difference("data", t->call.data, library->call.data, model->call.data);
}
