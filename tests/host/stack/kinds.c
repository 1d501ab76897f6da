#include "kinds.h"

#include <string.h>

#include "../chance.h"

/* a handle's head is AAD and tag */
enum { COUNT = 16, PROCESSOR = COUNT - 1, HALF = KEYLOCKER_HANDLE_256_SIZE, HANDLE_HEAD = 32, SEED = 1 };
enum { PROCESSOR_ENTRY = KEYLOCKER_MACHINE_ENTRIES + PROCESSOR * KEYLOCKER_ENTRY_SIZE };

/* labels of a full keyring, by number from 1 on; they are all on chain 0, the first one added at its end */
enum { LABELS = KEYLOCKER_KEYRING_LIMIT / KEYLOCKER_KEYRING_RECORD - 1, NEW_LABEL = LABELS + 1 };

/* opcode and ModRM behind F3 0F 38 */
enum {
    LOAD = 0xDCCA,       /* loadiwkey xmm1, xmm2 */
    ENCODE_128 = 0xFAD9, /* encodekey128 ebx, ecx */
    ENCODE_256 = 0xFBD9,
    ENC_128 = 0xDC00, /* aesenc128kl xmm0, [rax] */
    DEC_128 = 0xDD00,
    ENC_256 = 0xDE02, /* aesenc256kl xmm0, [rdx] */
    DEC_256 = 0xDF02,
    ENC_WIDE_128 = 0xD800,
    DEC_WIDE_128 = 0xD808,
    ENC_WIDE_256 = 0xD812,
    DEC_WIDE_256 = 0xD81A,
    NO_STRING = 0xD820, /* /4 is no form */
};

static uint8_t *reg(struct lent *lent, int n)
{
    return lent->cpu + KEYLOCKER_CPU_REGISTERS + 8 * n;
}

/* ---- what sets a call apart from the others of its instruction ---- */

static void with_reserved_bit(struct lent *lent) { lent->memory[4] = lent->memory[HALF + 4] = 1; }

static void with_other_tag(struct lent *lent)
{
    lent->memory[16] ^= 1;
    lent->memory[HALF + 16] ^= 1;
}

static void with_random(struct lent *lent) { reg(lent, KEYLOCKER_RAX)[0] = KEYLOCKER_LOADIWKEY_RANDOM; }

static void without_random(struct lent *lent)
{
    with_random(lent);
    lent->random_length = 0;
}

static void cut_short(struct lent *lent) { lent->string_length--; }

/* ZF stays what it is: 0, as of a step that does not fail */
static void without_string(struct lent *lent)
{
    lent->string_length = 0;
    lent->cpu[KEYLOCKER_CPU_RFLAGS] = 0;
}

static void at_cpl_3(struct lent *lent) { lent->cpu[KEYLOCKER_CPU_CPL] = 3; }

static void with_machine_cut(struct lent *lent) { lent->machine_length--; }

static void with_bad_machine(struct lent *lent) { lent->machine[KEYLOCKER_MACHINE_CONSUMED] = 2; }

static void with_bad_cpu(struct lent *lent) { lent->cpu[KEYLOCKER_CPU_CPL] = 4; }

static void without_cr4_kl(struct lent *lent) { lent->cpu[KEYLOCKER_CPU_CONTROL] &= (uint8_t)~KEYLOCKER_CONTROL_CR4_KL; }

static void outside_memory(struct lent *lent) { reg(lent, KEYLOCKER_RAX)[1] = 1; }

static void not_canonical(struct lent *lent) { reg(lent, KEYLOCKER_RAX)[7] = 1; }

/* the processor's key is no longer that of the backup, so that a copy in shows */
static void with_zero_key(struct lent *lent)
{
    memset(lent->machine + PROCESSOR_ENTRY, 0, KEYLOCKER_IWKEY_SIZE);
}

static void with_pending(struct lent *lent)
{
    lent->answer = keylocker_write(lent->machine, sizeof lent->machine, PROCESSOR, 0, KEYLOCKER_COPY_LOCAL_TO_PLATFORM, 1);
}

/* the first of chain 0 is taken out */
static void with_free_record(struct lent *lent)
{
    memcpy(lent->keyring, lent->keyring + LABELS * KEYLOCKER_KEYRING_RECORD + KEYLOCKER_RECORD_NEXT, 2);
}

/* record 1 is the end of chain 0, and the last that is met */
static void with_cycle(struct lent *lent) { lent->keyring[KEYLOCKER_KEYRING_RECORD + KEYLOCKER_RECORD_NEXT] = 1; }

static void with_longer_handle(struct lent *lent) { lent->handle_length = KEYLOCKER_HANDLE_256_SIZE; }

/* the wide bit */
static void without_wide(struct lent *lent) { lent->machine[KEYLOCKER_MACHINE_FEATURES] &= (uint8_t)~KEYLOCKER_FEATURE_WIDE; }

static void with_longer_without_wide(struct lent *lent)
{
    with_longer_handle(lent);
    without_wide(lent);
}

static void with_longer_other_tag(struct lent *lent)
{
    with_longer_handle(lent);
    with_other_tag(lent);
}

static void with_handle_cut(struct lent *lent) { lent->handle_length--; }

#define OF_OTHER_LENGTH(name, call, number) {name ", a machine of another length", call, number, with_machine_cut, KEYLOCKER_BAD_MACHINE, false, false}

/* a counter call over so many bytes, none of which it writes where there are none */
#define COUNTED(name, length)                                                                      \
    {name ", AES-128", CTR, length, NULL, 0, false, (length) != 0},                                \
    {name ", AES-128, not wide", CTR, length, without_wide, 0, false, (length) != 0},              \
    {name ", AES-256", CTR, length, with_longer_handle, 0, false, (length) != 0},                  \
    {name ", AES-256, not wide", CTR, length, with_longer_without_wide, 0, false, (length) != 0}

#define USE(name, string)                                                       \
    {name, STEP, string, NULL, 0, false, false},                                \
    {name ", illegal handle", STEP, string, with_reserved_bit, 0, true, false}, \
    {name ", handle not authentic", STEP, string, with_other_tag, 0, true, false}

const struct kind kinds[] = {
    {"power-on", POWER_ON, COUNT, NULL, 0, false, true},
    {"power-on, refused", POWER_ON, COUNT + 1, NULL, KEYLOCKER_BAD_MACHINE, false, false},
    OF_OTHER_LENGTH("power-on", POWER_ON, COUNT),
    {"CPUID leaf 7", CPUID, 7, NULL, 0, false, false},
    {"CPUID leaf 0x19", CPUID, 0x19, at_cpl_3, 0, false, false},
    {"CPUID, another leaf", CPUID, 0, NULL, 0, false, false},
    {"CPUID, machine refused", CPUID, 0x19, with_bad_machine, KEYLOCKER_BAD_MACHINE, false, false},
    {"CPUID, CPU record refused", CPUID, 0x19, with_bad_cpu, KEYLOCKER_BAD_CPU, false, false},
    OF_OTHER_LENGTH("CPUID", CPUID, 0x19),
    {"read 0x990", READ, KEYLOCKER_COPY_STATUS, NULL, 0, false, false},
    {"read 0x991", READ, KEYLOCKER_IWKEYBACKUP_STATUS, NULL, 0, false, false},
    {"read, refused", READ, KEYLOCKER_COPY_LOCAL_TO_PLATFORM, NULL, KEYLOCKER_GP, false, false},
    OF_OTHER_LENGTH("read", READ, KEYLOCKER_COPY_STATUS),
    {"write 0xD91", WRITE, KEYLOCKER_COPY_LOCAL_TO_PLATFORM, NULL, 0, false, true},
    {"write 0xD92", WRITE, KEYLOCKER_COPY_PLATFORM_TO_LOCAL, with_zero_key, 0, false, true},
    {"write, refused", WRITE, KEYLOCKER_COPY_STATUS, NULL, KEYLOCKER_GP, false, false},
    OF_OTHER_LENGTH("write", WRITE, KEYLOCKER_COPY_LOCAL_TO_PLATFORM),
    {"taken", TAKEN, 0, with_pending, 0, false, true},
    {"taken, nothing pending", TAKEN, 0, NULL, 0, false, false},
    {"taken, refused", TAKEN, 0, with_bad_machine, KEYLOCKER_BAD_MACHINE, false, false},
    OF_OTHER_LENGTH("taken", TAKEN, 0),
    {"settle, good", SETTLE, KEYLOCKER_SETTLE_GOOD, with_pending, 0, false, true},
    {"settle, bad", SETTLE, KEYLOCKER_SETTLE_BAD, with_pending, 0, false, true},
    {"settle, refused", SETTLE, 2, with_pending, KEYLOCKER_BAD_CODE, false, false},
    OF_OTHER_LENGTH("settle", SETTLE, KEYLOCKER_SETTLE_GOOD),
    {"sleep, old", SLEEP, KEYLOCKER_WAKE_OLD, with_pending, 0, false, true},
    {"sleep, new", SLEEP, KEYLOCKER_WAKE_NEW, with_pending, 0, false, true},
    {"sleep, junk", SLEEP, KEYLOCKER_WAKE_JUNK, with_pending, 0, false, true},
    {"sleep, refused", SLEEP, 3, with_pending, KEYLOCKER_BAD_CODE, false, false},
    OF_OTHER_LENGTH("sleep", SLEEP, KEYLOCKER_WAKE_OLD),
    {"reset", RESET, 0, NULL, 0, false, true},
    {"reset, refused", RESET, 0, with_bad_machine, KEYLOCKER_BAD_MACHINE, false, false},
    OF_OTHER_LENGTH("reset", RESET, 0),
    {"LOADIWKEY", STEP, LOAD, NULL, 0, false, true},
    {"LOADIWKEY, random data", STEP, LOAD, with_random, 0, false, true},
    {"LOADIWKEY, random data not ready", STEP, LOAD, without_random, 0, true, false},
    {"ENCODEKEY128", STEP, ENCODE_128, NULL, 0, false, false},
    {"ENCODEKEY256", STEP, ENCODE_256, NULL, 0, false, false},
    USE("AESENC128KL", ENC_128),
    USE("AESDEC128KL", DEC_128),
    USE("AESENC256KL", ENC_256),
    USE("AESDEC256KL", DEC_256),
    USE("AESENCWIDE128KL", ENC_WIDE_128),
    USE("AESDECWIDE128KL", DEC_WIDE_128),
    USE("AESENCWIDE256KL", ENC_WIDE_256),
    USE("AESDECWIDE256KL", DEC_WIDE_256),
    {"step, idle", STEP, ENC_128, without_string, 0, false, false},
    {"step, machine refused", STEP, ENC_128, with_bad_machine, KEYLOCKER_BAD_MACHINE, false, false},
    {"step, CPU record refused", STEP, ENC_128, with_bad_cpu, KEYLOCKER_BAD_CPU, false, false},
    {"step, string refused", STEP, NO_STRING, NULL, KEYLOCKER_BAD_BYTE, false, false},
    {"step, string ends", STEP, ENC_128, cut_short, KEYLOCKER_STRING_ENDS, false, false},
    {"step, #UD", STEP, ENC_128, without_cr4_kl, KEYLOCKER_UD, false, false},
    {"step, LOADIWKEY's #GP", STEP, LOAD, at_cpl_3, KEYLOCKER_GP, false, false},
    {"step, a use's #GP", STEP, ENC_128, not_canonical, KEYLOCKER_GP, false, false},
    {"step, #PF", STEP, ENC_128, outside_memory, KEYLOCKER_PF, false, false},
    OF_OTHER_LENGTH("step", STEP, ENC_128),
    COUNTED("ctr, no bytes", 0),
    COUNTED("ctr, 16 bytes", 16),
    COUNTED("ctr, 1,021 bytes", 1021),
    COUNTED("ctr, 65,536 bytes", KEYLOCKER_BUFFER_LIMIT),
    {"ctr, illegal handle", CTR, 1021, with_reserved_bit, 0, true, false},
    {"ctr, handle not authentic, AES-128", CTR, 1021, with_other_tag, 0, true, false},
    {"ctr, handle not authentic, AES-256", CTR, 1021, with_longer_other_tag, 0, true, false},
    {"ctr, machine refused", CTR, 1021, with_bad_machine, KEYLOCKER_BAD_MACHINE, false, false},
    {"ctr, CPU record refused", CTR, 1021, with_bad_cpu, KEYLOCKER_BAD_CPU, false, false},
    {"ctr, size refused", CTR, 1021, with_handle_cut, KEYLOCKER_BAD_SIZE, false, false},
    {"ctr, #UD", CTR, 1021, without_cr4_kl, KEYLOCKER_UD, false, false},
    OF_OTHER_LENGTH("ctr", CTR, 1021),
    {"keyring lookup, the last of a chain", LOOKUP, 1, NULL, 0, false, false},
    {"keyring lookup, no such label", LOOKUP, NEW_LABEL, NULL, KEYLOCKER_NO_LABEL, false, false},
    {"keyring lookup, refused", LOOKUP, 1, with_cycle, KEYLOCKER_BAD_KEYRING, false, false},
    {"keyring add, replaced", ADD, 1, NULL, 0, false, true},
    {"keyring add, new label", ADD, NEW_LABEL, with_free_record, 0, false, true},
    {"keyring add, full", ADD, NEW_LABEL, NULL, KEYLOCKER_KEYRING_FULL, false, false},
    {"keyring add, refused", ADD, 1, with_cycle, KEYLOCKER_BAD_KEYRING, false, false},
};
const size_t kind_count = sizeof kinds / sizeof *kinds;

/* ---- the call ---- */

static void put_string(struct lent *lent, uint32_t string)
{
    const uint8_t bytes[sizeof lent->string] = {0xF3, 0x0F, 0x38, (uint8_t)(string >> 8), (uint8_t)string};
    memcpy(lent->string, bytes, sizeof bytes);
    lent->string_length = sizeof bytes;
}

static uint32_t step(const struct entries *entries, struct lent *lent)
{
    return entries->step(lent->machine, lent->machine_length, PROCESSOR, lent->cpu, sizeof lent->cpu, lent->memory, sizeof lent->memory, lent->random,
                         lent->random_length, lent->string, lent->string_length);
}

static uint32_t ctr(const struct entries *entries, struct lent *lent)
{
    const uint8_t *handle = lent->memory + (lent->handle_length == KEYLOCKER_HANDLE_256_SIZE ? HALF : 0);
    return entries->ctr(lent->machine, lent->machine_length, PROCESSOR, lent->cpu, sizeof lent->cpu, handle, lent->handle_length, lent->counter,
                        sizeof lent->counter, lent->buffer, lent->buffer_length);
}

static uint32_t cpuid(const struct entries *entries, uint32_t leaf, struct lent *lent)
{
    return entries->cpuid(lent->machine, lent->machine_length, lent->cpu, sizeof lent->cpu, leaf, 0, &lent->leaf[0], &lent->leaf[1], &lent->leaf[2],
                          &lent->leaf[3]);
}

static uint32_t lookup(const struct entries *entries, struct lent *lent)
{
    return entries->keyring_lookup(lent->keyring, sizeof lent->keyring, lent->label, sizeof lent->label, &lent->found_kind, lent->found);
}

static uint32_t add(const struct entries *entries, struct lent *lent)
{
    return entries->keyring_add(lent->keyring, sizeof lent->keyring, lent->label, sizeof lent->label, lent->memory, KEYLOCKER_HANDLE_128_SIZE);
}

static uint32_t answer(const struct kind *kind, const struct entries *entries, struct lent *lent)
{
    size_t length = lent->machine_length;
    switch (kind->call) {
    case POWER_ON:
        return entries->power_on(lent->machine, length, (uint8_t)kind->number, KEYLOCKER_FEATURE_ALL);
    case STEP:
        return step(entries, lent);
    case CTR:
        return ctr(entries, lent);
    case CPUID:
        return cpuid(entries, kind->number, lent);
    case READ:
        return entries->read(lent->machine, length, PROCESSOR, 0, kind->number, &lent->value);
    case WRITE:
        return entries->write(lent->machine, length, PROCESSOR, 0, kind->number, 1);
    case TAKEN:
        return entries->taken(lent->machine, length);
    case SETTLE:
        return entries->settle(lent->machine, length, (uint8_t)kind->number);
    case SLEEP:
        return entries->sleep(lent->machine, length, (uint8_t)kind->number);
    case LOOKUP:
        return lookup(entries, lent);
    case ADD:
        return add(entries, lent);
    default:
        return entries->reset(lent->machine, length);
    }
}

void make_call(const struct kind *kind, const struct entries *entries, struct lent *lent)
{
    lent->answer = answer(kind, entries, lent);
}

/* ---- before and after ---- */

/* other bytes in XMM0 to XMM15 each time, the handles' addresses in RAX and RDX */
static void put_registers(struct lent *lent)
{
    memset(lent->cpu, 0, sizeof lent->cpu);
    any_bytes(lent->cpu + KEYLOCKER_CPU_XMM, 256);
    reg(lent, KEYLOCKER_RDX)[0] = HALF;
    lent->cpu[KEYLOCKER_CPU_CONTROL] = KEYLOCKER_CONTROL_CR4_KL | KEYLOCKER_CONTROL_CR4_OSFXSR;
}

static bool encode(struct lent *lent, uint32_t string, uint8_t *handle, size_t length, uint8_t *key)
{
    put_registers(lent);
    put_string(lent, string);
    memcpy(key, lent->cpu + KEYLOCKER_CPU_XMM, length - HANDLE_HEAD);
    bool done = step(&on_normal_stack, lent) == KEYLOCKER_DONE;
    memcpy(handle, lent->cpu + KEYLOCKER_CPU_XMM, length);
    return done;
}

bool is_loadiwkey(const struct kind *kind) { return kind->call == STEP && kind->number == LOAD; }

bool is_idle(const struct kind *kind, const struct lent *lent) { return kind->call == STEP && !lent->string_length; }

const uint8_t *processor_iwkey(const struct lent *lent) { return lent->machine + PROCESSOR_ENTRY; }

/* whether the key has the longer size, of a step that has one */
static bool has_longer_key(uint32_t string)
{
    return string == ENCODE_256 || string == ENC_256 || string == DEC_256 || string == ENC_WIDE_256 || string == DEC_WIDE_256;
}

size_t key_of(const struct kind *kind, const struct lent *before, const uint8_t **key)
{
    bool encodes = kind->call == STEP && (kind->number == ENCODE_128 || kind->number == ENCODE_256);
    bool longer = kind->call == STEP ? has_longer_key(kind->number) : before->handle_length == KEYLOCKER_HANDLE_256_SIZE;
    *key = encodes ? before->cpu + KEYLOCKER_CPU_XMM : before->keys[longer];
    if ((kind->call != STEP && kind->call != CTR) || is_loadiwkey(kind) || is_idle(kind, before))
        return 0;
    return longer ? 32 : 16;
}

static bool is_keyring_call(const struct kind *kind) { return kind->call == LOOKUP || kind->call == ADD; }

static void put_label(struct lent *lent, uint32_t number)
{
    lent->label[KEYLOCKER_LABEL_SIZE - 2] = (uint8_t)number;
    lent->label[KEYLOCKER_LABEL_SIZE - 1] = (uint8_t)(number >> 8);
}

/* with the longer handles, so that another replaces one */
static bool fill_keyring(struct lent *lent)
{
    bool done = true;
    for (uint32_t number = 1; number <= LABELS; number++) {
        put_label(lent, number);
        done &= keylocker_keyring_add(lent->keyring, sizeof lent->keyring, lent->label, sizeof lent->label, lent->memory + HALF,
                                      KEYLOCKER_HANDLE_256_SIZE) == KEYLOCKER_DONE;
    }
    return done;
}

/* a key on the last processor that persistent storage holds, too, two handles under it, and for the calls on it a full keyring */
bool prepare(const struct kind *kind, struct lent *lent)
{
    chance_seed(SEED);
    memset(lent, 0, sizeof *lent);
    lent->machine_length = sizeof lent->machine;
    any_bytes(lent->random, sizeof lent->random);
    memset(lent->leaf, 0x5A, sizeof lent->leaf);
    memset(lent->found, 0x5A, sizeof lent->found);
    lent->found_kind = 0x5A;
    lent->random_length = sizeof lent->random;
    memset(lent->counter, 0xFF, sizeof lent->counter);
    lent->handle_length = KEYLOCKER_HANDLE_128_SIZE;
    lent->buffer_length = kind->call == CTR ? kind->number : 0;
    put_registers(lent);
    put_string(lent, LOAD);
    bool done = keylocker_power_on(lent->machine, sizeof lent->machine, COUNT, KEYLOCKER_FEATURE_ALL) == KEYLOCKER_DONE &&
                step(&on_normal_stack, lent) == KEYLOCKER_DONE &&
                keylocker_write(lent->machine, sizeof lent->machine, PROCESSOR, 0, KEYLOCKER_COPY_LOCAL_TO_PLATFORM, 1) == KEYLOCKER_DONE &&
                keylocker_settle(lent->machine, sizeof lent->machine, KEYLOCKER_SETTLE_GOOD) == KEYLOCKER_DONE &&
                encode(lent, ENCODE_128, lent->memory, KEYLOCKER_HANDLE_128_SIZE, lent->keys[0]) &&
                encode(lent, ENCODE_256, lent->memory + HALF, KEYLOCKER_HANDLE_256_SIZE, lent->keys[1]);
    put_registers(lent);
    lent->cpu[KEYLOCKER_CPU_RFLAGS] = kind->fails ? 0 : KEYLOCKER_RFLAGS_ZF;
    put_string(lent, kind->number);
    done = done && (!is_keyring_call(kind) || fill_keyring(lent));
    put_label(lent, kind->number);
    if (kind->spoil)
        kind->spoil(lent);
    return done && lent->answer == KEYLOCKER_DONE;
}

/* NULL, or what is wrong of the keyring and of what a lookup gives */
static const char *keyring_not_as_meant(const struct kind *kind, const struct lent *before, const struct lent *after)
{
    bool finds = kind->call == LOOKUP && !kind->answer, writes = kind->call == ADD && kind->writes;
    if ((memcmp(before->keyring, after->keyring, sizeof after->keyring) != 0) != writes)
        return writes ? "the keyring is as it was" : "the keyring was written";
    if ((before->found_kind != after->found_kind) != finds || (memcmp(before->found, after->found, sizeof after->found) != 0) != finds)
        return finds ? "kind or handle are as they were" : "kind or handle were written";
    return NULL;
}

/* of the buffer, and of all in the CPU record but RFLAGS */
static const char *ctr_not_as_meant(const struct kind *kind, const struct lent *before, const struct lent *after)
{
    bool writes = kind->call == CTR && kind->writes;
    uint8_t cpu[KEYLOCKER_CPU_SIZE];
    if ((memcmp(before->buffer, after->buffer, sizeof after->buffer) != 0) != writes)
        return writes ? "the buffer is as it was" : "the buffer was written";
    memcpy(cpu, after->cpu, sizeof cpu);
    memcpy(cpu + KEYLOCKER_CPU_RFLAGS, before->cpu + KEYLOCKER_CPU_RFLAGS, 8);
    return kind->call == CTR && memcmp(before->cpu, cpu, sizeof cpu) != 0 ? "more of the CPU record than RFLAGS was written" : NULL;
}

const char *not_as_meant(const struct kind *kind, const struct lent *before, const struct lent *after)
{
    bool identifies = kind->call == CPUID && !kind->answer, writes = kind->writes && kind->call != ADD && kind->call != CTR;
    if (after->answer != kind->answer)
        return "another answer than meant";
    if ((memcmp(before->machine, after->machine, sizeof after->machine) != 0) != writes)
        return writes ? "the machine is as it was" : "the machine was written";
    if ((kind->call == STEP || kind->call == CTR) && !kind->answer && ((after->cpu[KEYLOCKER_CPU_RFLAGS] & KEYLOCKER_RFLAGS_ZF) != 0) != kind->fails)
        return "another ZF than meant";
    if ((kind->call == CPUID || is_idle(kind, after)) && memcmp(before->cpu, after->cpu, sizeof after->cpu) != 0)
        return "the CPU record was written";
    if ((memcmp(before->leaf, after->leaf, sizeof after->leaf) != 0) != identifies)
        return identifies ? "CPUID's numbers are as they were" : "CPUID's numbers were written";
    const char *differs = ctr_not_as_meant(kind, before, after);
    return differs ? differs : keyring_not_as_meant(kind, before, after);
}
