#include "generate.h"

#include <string.h>

#include "assemble.h"
#include "chance.h"
#include "cpuid.h"
#include "forge.h"
#include "spoil.h"

/* 64 bits of every kind: small, large, near the edges of canonical addresses and of the number range */
static uint64_t interesting64(void)
{
    static const uint64_t edges[] = {0,          0x7FFFFFFFFFFF, 0x800000000000, UINT64_C(0xFFFF800000000000),
                                     UINT64_MAX, MEMORY_LIMIT,   0x80000000,     0x100000000};
    switch (below(4)) {
    case 0:
        return below(512);
    case 1:
        return edges[below(sizeof edges / sizeof *edges)] + below(129) - 64;
    default:
        return any64();
    }
}

static uint8_t some_features(void)
{
    uint8_t features = F_ALL;
    for (unsigned bit = 0; bit < 6; bit++)
        if (one_in(8))
            features &= (uint8_t)~(1 << bit);
    return one_in(3) ? features : F_ALL;
}

static uint8_t some_count(void)
{
    return one_in(4) ? 16 : one_in(4) ? 1 : (uint8_t)(1 + below(16));
}

static uint8_t some_processor(const struct machine *m)
{
    return (uint8_t)below(one_in(3) ? m->count : m->count < 4 ? m->count : 4);
}

static bool has_key(const struct machine *m, uint8_t processor)
{
    static const struct iwkey zero;
    return memcmp(&m->processors[processor].iwkey, &zero, sizeof zero) != 0;
}

/* rather one whose IWKey was loaded */
static uint8_t some_loaded_processor(const struct machine *m)
{
    uint8_t processor = some_processor(m);
    for (int tries = 0; tries < 3 && !has_key(m, processor); tries++)
        processor = some_processor(m);
    return processor;
}

static void make_iwkey(const struct world *world, struct iwkey *iwkey)
{
    memset(iwkey, 0, sizeof *iwkey);
    if (one_in(6))
        return;
    if (world->known_count && one_in(2)) {
        *iwkey = world->known[below(world->known_count)].iwkey;
        return;
    }
    any_bytes(iwkey->integrity, sizeof iwkey->integrity);
    any_bytes(iwkey->encryption, sizeof iwkey->encryption);
    iwkey->source = one_in(2);
    iwkey->no_backup = one_in(2);
}

/* any backup, store and flags that refusal 1 does not name */
static void make_platform(const struct world *world, struct machine *m)
{
    memset(&m->backup, 0, sizeof m->backup);
    memset(&m->store, 0, sizeof m->store);
    if ((m->backup.present = one_in(2)))
        make_iwkey(world, &m->backup.iwkey);
    if ((m->store.present = one_in(2)))
        make_iwkey(world, &m->store.iwkey);
    m->pending = one_in(2);
    m->valid = one_in(2);
    m->error = one_in(2);
    m->consumed = one_in(2);
}

/* Any record that refusal 1 does not name, also such as no list of calls reaches. */
static void make_record(const struct world *world, struct machine *m)
{
    memset(m, 0, sizeof *m);
    m->count = some_count();
    m->features = some_features();
    for (int i = 0; i < m->count; i++) {
        make_iwkey(world, &m->processors[i].iwkey);
        m->processors[i].copy_status = one_in(2);
    }
    make_platform(world, m);
}

static void choose_power_on(struct trial *t, unsigned number)
{
    bool steady = number % 2 == 0; /* these machines keep one long list, with every feature */
    t->call.kind = POWER_ON;
    t->call.count = number == 0 ? 3 : some_count();
    t->call.features = steady ? F_ALL : some_features();
    t->meant = 0;
    if (one_in(2))
        any_bytes(t->machine_room, sizeof(struct machine));
}

/* ---- CPU records ---- */

static void choose_record(struct trial *t)
{
    struct cpu *cpu = trial_cpu(t);
    any_bytes(cpu, sizeof *cpu);
    for (int i = 0; i < 16; i++)
        store64(cpu->registers[i], interesting64());
    store64(cpu->rip, interesting64());
    cpu->cpl = (uint8_t)below(4);
    cpu->control = C_CR4_KL | C_OSFXSR;
    memset(cpu->zeros, 0, sizeof cpu->zeros);
    t->call.cpu.length = sizeof *cpu;
}

/* ---- steps ---- */

static void choose_lent(struct trial *t)
{
    choose_record(t);
    t->call.random.length = one_in(3) ? 0 : RANDOM_SIZE;
    any_bytes(t->random_room, RANDOM_SIZE);
    t->call.memory.length = below(200);
    any_bytes(t->memory_room, t->call.memory.length);
}

/* the lower half of a register; the upper one is not looked at */
static void set_low_half(struct cpu *cpu, unsigned number, uint32_t value)
{
    store32(cpu->registers[number], value);
}

/* keys and IWKeys repeat now and then: equal keys under different names */
static void choose_key_registers(struct cpu *cpu)
{
    if (one_in(4))
        memset(cpu->xmm, (int)below(3), sizeof cpu->xmm);
}

static void choose_encode(struct trial *t)
{
    struct cpu *cpu = trial_cpu(t);
    unsigned source = (unsigned)below(16);
    assemble_registers(t, one_in(2) ? ENCODEKEY128 : ENCODEKEY256, one_in(4) ? source : (unsigned)below(16), source);
    choose_key_registers(cpu);
    set_low_half(cpu, source, one_in(2) ? 0 : (uint32_t)below(8));
    if (one_in(2))
        any_bytes(cpu->registers[source] + 4, 4);
}

static void choose_load(struct trial *t)
{
    struct cpu *cpu = trial_cpu(t);
    uint32_t no_backup = one_in(5), source = one_in(2);
    assemble_registers(t, LOADIWKEY, (unsigned)below(16), (unsigned)below(16));
    choose_key_registers(cpu);
    set_low_half(cpu, RAX, no_backup | source << 1);
    cpu->cpl = 0;
}

/* an encoded handle under the IWKey of the processor, or of a later one, and that processor */
static const struct known_handle *find_fitting(const struct world *world, const struct machine *m, uint8_t *processor)
{
    size_t start = world->known_count ? below(world->known_count) : 0;
    for (uint8_t tries = 0; tries < m->count; tries++) {
        uint8_t candidate = (uint8_t)((*processor + tries) % m->count);
        for (size_t i = 0; i < world->known_count; i++) {
            const struct known_handle *known = &world->known[(start + i) % world->known_count];
            if (memcmp(&known->iwkey, &m->processors[candidate].iwkey, sizeof known->iwkey) == 0) {
                *processor = candidate;
                return known;
            }
        }
    }
    return NULL;
}

static void choose_handle(const struct world *world, struct trial *t, struct known_handle *handle)
{
    static const enum handle_origin rare[] = {HANDLE_UNRELATED,    HANDLE_FLIPPED,    HANDLE_TOP_BIT,       HANDLE_TAG_ONLY,
                                              HANDLE_RESERVED_BIT, HANDLE_WRONG_TYPE, HANDLE_COUNTER_WRAPS, HANDLE_JUNK};
    const struct machine *m = trial_machine(t);
    const struct known_handle *known = NULL;
    t->origin = one_in(5) ? rare[below(sizeof rare / sizeof *rare)] : HANDLE_FITTING;
    if (t->origin == HANDLE_UNRELATED && world->known_count)
        known = &world->known[below(world->known_count)];
    else if (t->origin < HANDLE_TAG_ONLY)
        known = find_fitting(world, m, &t->call.processor);
    if (!forge_handle(t->origin, &m->processors[t->call.processor].iwkey, known, handle)) {
        t->origin = HANDLE_JUNK;
        forge_handle(t->origin, &m->processors[t->call.processor].iwkey, NULL, handle);
    }
}

/* Memory with the handle in it; says where. It may end with the handle, or with as much of it as the use reads. */
static uint64_t place_handle(struct trial *t, const struct known_handle *handle, size_t read)
{
    size_t before = one_in(3) ? 0 : below(300), after = one_in(2) ? 0 : below(100);
    if (one_in(600))
        before = MEMORY_LIMIT - read - after;
    t->call.memory.length = before + read + after;
    any_bytes(t->memory_room + (before < 300 ? 0 : before - 300), read + after + (before < 300 ? before : 300));
    memcpy(t->memory_room + before, handle->bytes, handle->length < read + after ? handle->length : read + after);
    return before;
}

static enum form some_use(size_t handle_bytes)
{
    bool longer = (handle_bytes == HANDLE_MOST) != one_in(12);
    return (enum form)((one_in(2) ? AESENCWIDE128KL : AESENC128KL) + 2 * longer + one_in(2));
}

static void choose_use(const struct world *world, struct trial *t)
{
    struct known_handle handle;
    choose_handle(world, t, &handle);
    enum form form = some_use(handle.length);
    uint64_t at = place_handle(t, &handle, handle_length(form));
    assemble_use(t, form, (unsigned)below(16), at);
    if (one_in(2))
        trial_cpu(t)->cpl = 0;
}

/* Half of them on a copy with any features: the machines themselves seldom lack more than one. */
static void choose_features(struct trial *t)
{
    if (one_in(2)) {
        t->carried = false;
        trial_machine(t)->features = (uint8_t)below(F_ALL + 1);
    }
}

/* the string stays empty */
static void choose_idle(struct trial *t)
{
    trial_cpu(t)->control = (uint8_t)below(C_ALL + 1);
    if (one_in(4))
        t->call.memory.length = 0;
    choose_features(t);
}

static void choose_step(const struct world *world, struct trial *t)
{
    t->call.kind = STEP;
    choose_lent(t);
    unsigned choice = (unsigned)below(20);
    t->call.processor = choice < 3 ? some_processor(trial_machine(t)) : some_loaded_processor(trial_machine(t));
    if (choice < 3)
        choose_load(t);
    else if (choice < 7)
        choose_encode(t);
    else if (choice < 8)
        choose_idle(t);
    else
        choose_use(world, t);
    t->meant = 0;
}

/* ---- counter calls ---- */

/* lengths around whole blocks and whole groups of eight; one of the longest now and then, since they take long */
static size_t some_data_length(void)
{
    static const size_t edges[] = {0, 0, 1, 15, 16, 17, 127, 128, 129};
    if (one_in(150))
        return BUFFER_LIMIT - below(2);
    return one_in(2) ? edges[below(sizeof edges / sizeof *edges)] : below(one_in(8) ? 2000 : 300);
}

/* often such that a few blocks on it carries out of byte 15, 12, 8 or 0: all bytes from that one on are FF, the last a little less */
static void choose_counter(struct trial *t)
{
    static const unsigned carrying[] = {15, 12, 8, 0, 14, 11, 7, 1};
    any_bytes(t->counter_room, COUNTER_ROOM);
    if (!one_in(3)) {
        unsigned from = carrying[below(one_in(4) ? 8 : 4)];
        memset(t->counter_room + from, 0xFF, COUNTER_SIZE - from);
        t->counter_room[15] = (uint8_t)(t->counter_room[15] - below(12));
    }
    t->call.counter.length = COUNTER_SIZE;
}

/* seldom of the other size: cut, or with bytes behind it */
static void choose_lent_handle(const struct world *world, struct trial *t)
{
    struct known_handle handle;
    choose_handle(world, t, &handle);
    any_bytes(t->handle_room, LENT_HANDLE_ROOM);
    memcpy(t->handle_room, handle.bytes, handle.length);
    t->call.handle.length = one_in(12) ? 48 + 64 - handle.length : handle.length;
}

/* Many on a copy: the same machine without the wide bit, the few long ones as often as with it, or one with any features. */
static void choose_ctr_features(struct trial *t)
{
    if (one_in(6)) {
        choose_features(t);
    } else if (one_in(t->call.data.length > BUFFER_LIMIT / 2 ? 2 : 3)) {
        t->carried = false;
        trial_machine(t)->features ^= F_WIDE;
    }
}

static void choose_ctr(const struct world *world, struct trial *t)
{
    t->call.kind = CTR;
    choose_record(t);
    if (one_in(2))
        trial_cpu(t)->cpl = 0;
    t->call.processor = some_loaded_processor(trial_machine(t));
    choose_lent_handle(world, t);
    choose_counter(t);
    t->call.data.length = some_data_length();
    any_bytes(t->data_room, t->call.data.length);
    choose_ctr_features(t);
    t->meant = 0;
}

/* ---- CPUID ---- */

/* mostly the two that have bits; others that agree with them in some bytes, or are next to them */
static uint32_t some_leaf(void)
{
    static const uint32_t others[] = {0, 6, 8, 0x18, 0x1A, 0x107, 0x119, 0x80000007, 0x40000019};
    if (!one_in(4))
        return one_in(3) ? LEAF_FEATURES : LEAF_KEY_LOCKER;
    return one_in(4) ? (uint32_t)any64() : others[below(sizeof others / sizeof *others)];
}

static uint32_t some_subleaf(void)
{
    static const uint32_t edges[] = {0, 0, 1, UINT32_MAX};
    return one_in(3) ? (uint32_t)any64() : edges[below(sizeof edges / sizeof *edges)];
}

static void choose_cpuid(struct trial *t)
{
    t->call.kind = CPUID;
    choose_record(t);
    trial_cpu(t)->control = (uint8_t)below(C_ALL + 1);
    t->call.leaf = some_leaf();
    t->call.subleaf = some_subleaf();
    choose_features(t);
    t->meant = 0;
}

/* ---- the other calls ---- */

static void choose_register(struct trial *t, bool write)
{
    t->call.kind = write ? WRITE : READ;
    t->call.processor = some_processor(trial_machine(t));
    t->call.cpl = 0;
    t->call.address = write ? (one_in(2) ? COPY_OUT : COPY_IN) : one_in(2) ? COPY_STATUS : BACKUP_STATUS;
    t->call.value = write && !one_in(10);
    t->meant = 0;
}

static void choose_platform(struct trial *t, enum call_kind kind)
{
    t->call.kind = kind;
    t->call.code = (uint8_t)below(kind == SLEEP ? 3 : 2);
    t->meant = 0;
}

/* Half of them on a copy with any backup, store and flags: of the 64 ways that these can be there or not, lists of calls reach nine. */
static void choose_taken(const struct world *world, struct trial *t)
{
    choose_platform(t, TAKEN);
    if (one_in(2)) {
        t->carried = false;
        make_platform(world, trial_machine(t));
    }
}

/* ---- strings and numbers that only the model can judge ---- */

/* prefixes, in the places of each other, more often than other bytes */
static uint8_t some_byte(void)
{
    static const uint8_t prefixes[] = {0x67, 0x67, 0xF0, 0xF3, 0x48};
    return one_in(3) ? prefixes[below(sizeof prefixes)] : (uint8_t)any64();
}

static void mutate_string(struct trial *t)
{
    for (uint64_t changes = 1 + below(3); changes > 0; changes--) {
        size_t length = t->call.string.length, at = length ? below(length < LONGEST ? length : LONGEST) : 0;
        switch (below(4)) {
        case 0:
            t->call.string.length = at;
            break;
        case 1:
            memmove(t->string_room + at + 1, t->string_room + at, length - at);
            t->string_room[at] = some_byte();
            t->call.string.length++;
            break;
        default:
            t->string_room[at] = one_in(2) ? some_byte() : (uint8_t)(t->string_room[at] ^ 1 << below(8));
        }
    }
}

/* sizes of a counter call, of which only the model knows whether they are right */
static void mutate_sizes(struct trial *t)
{
    static const size_t handles[] = {0, 16, 32, 47, 48, 49, 63, 64, 65, 80};
    t->call.handle.length = handles[below(sizeof handles / sizeof *handles)];
    t->call.counter.length = one_in(3) ? below(COUNTER_ROOM) : COUNTER_SIZE;
}

/* numbers without care for what they mean */
static void mutate_numbers(struct trial *t)
{
    struct cpu *cpu = trial_cpu(t);
    t->call.count = (uint8_t)below(20);
    t->call.features = (uint8_t)below(one_in(2) ? 64 : 256);
    t->call.processor = (uint8_t)below(20);
    t->call.cpl = (uint8_t)below(6);
    t->call.code = (uint8_t)below(5);
    t->call.address = one_in(2) ? t->call.address ^ 1u << below(32) : (uint32_t)any64();
    t->call.value = one_in(2) ? below(3) : UINT64_C(1) << below(64);
    t->call.leaf ^= one_in(2) ? 0 : UINT32_C(1) << below(32);
    t->call.subleaf = one_in(2) ? 0 : UINT32_C(1) << below(32);
    if (t->call.kind == STEP || t->call.kind == CPUID || t->call.kind == CTR) {
        cpu->control = (uint8_t)below(one_in(2) ? 16 : 32);
        cpu->cpl = (uint8_t)below(5);
        store64(cpu->registers[below(16)], interesting64());
    }
}

static void mutate(struct trial *t)
{
    t->meant = ANY_NUMBER;
    t->meant_string = false;
    if (t->call.kind == STEP && !one_in(3))
        mutate_string(t);
    else if (t->call.kind == CTR && one_in(2))
        mutate_sizes(t);
    else
        mutate_numbers(t);
}

static void choose_call(const struct world *world, struct trial *t)
{
    unsigned choice = (unsigned)below(1000);
    if (choice < 520)
        choose_step(world, t);
    else if (choice < 580)
        choose_ctr(world, t);
    else if (choice < 630)
        choose_cpuid(t);
    else if (choice < 800)
        choose_register(t, true);
    else if (choice < 860)
        choose_register(t, false);
    else if (choice < 900)
        choose_taken(world, t);
    else if (choice < 965)
        choose_platform(t, SETTLE);
    else if (choice < 982)
        choose_platform(t, SLEEP);
    else if (choice < 986)
        choose_platform(t, RESET);
    else
        choose_power_on(t, 1);
}

static void begin(const struct world *world, struct trial *t)
{
    t->machine_number = (unsigned)below(MACHINES);
    memcpy(t->machine_room, &world->machines[t->machine_number].machine, sizeof(struct machine));
    t->machine = (struct buffer){t->machine_room, sizeof(struct machine)};
    t->call = (struct call){.cpu = {t->cpu_room, 0}, .memory = {t->memory_room, 0}, .random = {t->random_room, 0}, .string = {t->string_room, 0}};
    t->call.handle = (struct buffer){t->handle_room, 0};
    t->call.counter = (struct buffer){t->counter_room, 0};
    t->call.data = (struct buffer){t->data_room, 0};
    t->null_if_empty = one_in(2);
    t->carried = true;
    t->made = t->meant_string = false;
    t->spoils[0] = t->spoils[1] = -1;
    any_bytes(t->leaf_before, sizeof t->leaf_before);
}

/* neither CPUID's number nor that of an idle step depends on the features, that of a counter call on two of them */
static uint8_t needed_features(const struct trial *t)
{
    if (t->call.kind == POWER_ON || t->call.kind == CPUID || is_idle(&t->call))
        return 0;
    return t->call.kind == CTR ? F_KL | F_FIRMWARE : F_ALL;
}

void generate(const struct world *world, struct trial *t)
{
    begin(world, t);
    if (trial_machine(t)->count == 0) {
        choose_power_on(t, t->machine_number);
        return;
    }
    if (t->machine_number == 3 && one_in(12)) {
        make_record(world, trial_machine(t));
        t->made = true;
    }
    choose_call(world, t);
    if (t->call.kind == POWER_ON && t->machine_number % 2 == 0)
        t->carried = false;
    if (needed_features(t) & ~trial_machine(t)->features)
        t->meant = ANY_NUMBER;
    if (one_in(14))
        mutate(t);
    else if (one_in(4))
        spoil(t);
}
