#include "coverage.h"

#include <stdio.h>
#include <string.h>

#include "cpuid.h"
#include "refusals.h"
#include "spoil.h"

/* "must": each occurs in every long run */
#define EVENTS(X)                                                                     \
    X(LOAD_0, "LOADIWKEY, key source 0")                                              \
    X(LOAD_0_RANDOM, "LOADIWKEY, key source 0 with random data lent")                 \
    X(LOAD_1, "LOADIWKEY, key source 1")                                              \
    X(LOAD_NOT_READY, "LOADIWKEY, not ready")                                         \
    X(LOAD_NO_BACKUP, "LOADIWKEY, NoBackup")                                          \
    X(LOAD_NO_FIRMWARE, "LOADIWKEY without the firmware bit")                         \
    X(ENCODE_128, "ENCODEKEY128")                                                     \
    X(ENCODE_256, "ENCODEKEY256")                                                     \
    X(ENCODE_CPL_3, "encode for CPL 0 only, at CPL 3")                                \
    X(ENCODE_ALIKE, "encode with destination and source alike")                       \
    X(COPY_OUT_WORKED, "copy out worked")                                             \
    X(COPY_OUT_AGAIN, "copy out worked over an earlier backup")                       \
    X(COPY_OUT_NO_BACKUP, "copy out failed, NoBackup")                                \
    X(COPY_OUT_PENDING, "copy out failed, pending")                                   \
    X(COPY_IN_WORKED, "copy in worked")                                               \
    X(COPY_IN_OVER_KEY, "copy in worked over another key")                            \
    X(COPY_IN_PENDING, "copy in worked while pending")                                \
    X(COPY_IN_FAILED, "copy in failed, no backup")                                    \
    X(COPY_IN_FAILED_STATUS, "copy in failed, copy status was 1")                     \
    X(WRITE_0, "0 written with copy status 1")                                        \
    X(READ_STATUS_0, "copy status read, 0")                                           \
    X(READ_STATUS_1, "copy status read, 1")                                           \
    X(READ_VALID, "backup status read with valid")                                    \
    X(READ_ERROR, "backup status read with error")                                    \
    X(READ_CONSUMED, "backup status read with consumed")                              \
    X(SETTLE_GOOD, "settle good, pending")                                            \
    X(SETTLE_BAD, "settle bad, pending")                                              \
    X(SETTLE_GOOD_IDLE, "settle good, nothing pending")                               \
    X(SETTLE_BAD_IDLE, "settle bad, nothing pending")                                 \
    X(SETTLE_NO_BACKUP, "settle good, pending without a backup")                      \
    X(SLEEP_OLD_PENDING, "sleep, pending, old")                                       \
    X(SLEEP_NEW_PENDING, "sleep, pending, new")                                       \
    X(SLEEP_JUNK_PENDING, "sleep, pending, junk")                                     \
    X(SLEEP_OLD, "sleep, nothing pending, old")                                       \
    X(SLEEP_NEW, "sleep, nothing pending, new")                                       \
    X(SLEEP_JUNK, "sleep, nothing pending, junk")                                     \
    X(SLEEP_NO_BACKUP, "sleep, pending without a backup, new")                        \
    X(SLEEP_AFTER_BAD, "sleep with a backup and no store")                            \
    X(RESET_BACKUP, "reset with a backup")                                            \
    X(PLATFORM_NO_FEATURES, "settle, sleep or reset without KL or backup feature")    \
    X(TAKEN_NO_FEATURES, "taken sets consumed without KL or backup feature")          \
    X(TAKEN_AGAIN, "in a list: taken, taken before")                                  \
    X(TAKEN_COPY_OUT, "in a list: copy out failed, taken before")                     \
    X(TAKEN_COPY_IN, "in a list: copy in worked, taken before")                       \
    X(TAKEN_READ, "in a list: backup status read, 8")                                 \
    X(TAKEN_SETTLE_GOOD, "in a list: settle good, taken before")                      \
    X(TAKEN_SETTLE_BAD, "in a list: settle bad, taken before")                        \
    X(TAKEN_SLEEP_OLD, "in a list: sleep, old, taken before")                         \
    X(TAKEN_SLEEP_NEW, "in a list: sleep, new, taken before")                         \
    X(TAKEN_SLEEP_JUNK, "in a list: sleep, junk, taken before")                       \
    X(TAKEN_RESET, "in a list: reset, taken before")                                  \
    X(IDLE_LISTED, "in a list: idle step")                                            \
    X(IDLE_NO_KL, "idle step without the KL feature")                                 \
    X(IDLE_NO_FIRMWARE, "idle step without the firmware bit")                         \
    X(IDLE_NO_CR4_KL, "idle step with CR4.KL off")                                    \
    X(IDLE_NO_OSFXSR, "idle step with CR4.OSFXSR off")                                \
    X(IDLE_EM, "idle step with CR0.EM on")                                            \
    X(IDLE_TS, "idle step with CR0.TS on")                                            \
    X(IDLE_CPL_0, "idle step at CPL 0")                                               \
    X(IDLE_CPL_1, "idle step at CPL 1")                                               \
    X(IDLE_CPL_2, "idle step at CPL 2")                                               \
    X(IDLE_CPL_3, "idle step at CPL 3")                                               \
    X(IDLE_FLAGS, "idle step with all six flags set")                                 \
    X(IDLE_NO_MEMORY, "idle step without memory")                                     \
    X(IDLE_RANDOM, "idle step with random data")                                      \
    X(IDLE_NO_RANDOM, "idle step without random data")                                \
    X(IDLE_NULL, "idle step with a null pointer for the string")                      \
    X(IDLE_NOT_NULL, "idle step with another pointer for the string")                 \
    X(IDLE_1, "idle step refused, 1")                                                 \
    X(IDLE_3, "idle step refused, 3")                                                 \
    X(IDLE_4, "idle step refused, 4")                                                 \
    X(IDLE_5, "idle step refused, 5")                                                 \
    X(IDLE_6, "idle step refused, 6")                                                 \
    X(IDLE_7, "idle step refused, 7")                                                 \
    X(CTR_LISTED, "in a list: counter call")                                          \
    X(CTR_RESERVED, "counter call, ZF 1: a reserved AAD bit")                         \
    X(CTR_OTHER_TYPE, "counter call, ZF 1: the key type of the other size")           \
    X(CTR_UNKNOWN_TYPE, "counter call, ZF 1: a key type of no size")                  \
    X(CTR_CPL_0_ONLY, "counter call, ZF 1: CPL 0 only")                               \
    X(CTR_NO_ENCRYPTION, "counter call, ZF 1: no encryption")                         \
    X(CTR_TAG, "counter call, ZF 1: another tag")                                     \
    X(CTR_CUT, "counter call, ZF 1: the first 48 bytes of an encoded handle of 64")   \
    X(CTR_GROWN, "counter call, ZF 1: an encoded handle of 48 bytes and 16 more")     \
    X(CTR_NO_DECRYPTION, "counter call, ZF 0: no decryption")                         \
    X(CTR_CPL_0, "counter call, ZF 0: CPL 0 only, at CPL 0")                          \
    X(CTR_CPL_3, "counter call, ZF 0, at CPL 3")                                      \
    X(CTR_FLAGS_0, "counter call, ZF 0, all six flags set before")                    \
    X(CTR_FLAGS_1, "counter call, ZF 1, all six flags set before")                    \
    X(CTR_EMPTY_0, "counter call, ZF 0: an empty buffer")                             \
    X(CTR_EMPTY_1, "counter call, ZF 1: an empty buffer")                             \
    X(CTR_NULL, "counter call with a null pointer for an empty buffer")               \
    X(CTR_NOT_NULL, "counter call with another pointer for an empty buffer")          \
    X(CTR_65537, "counter call refused, 18: 65,537 bytes")                            \
    X(CTR_HANDLE_0, "counter call refused, 18: a handle of no bytes")                 \
    X(CTR_HANDLE_47, "counter call refused, 18: a handle of 47 bytes")                \
    X(CTR_HANDLE_49, "counter call refused, 18: a handle of 49 bytes")                \
    X(CTR_HANDLE_63, "counter call refused, 18: a handle of 63 bytes")                \
    X(CTR_HANDLE_65, "counter call refused, 18: a handle of 65 bytes")                \
    X(CTR_COUNTER_0, "counter call refused, 18: a counter block of no bytes")         \
    X(CTR_COUNTER_15, "counter call refused, 18: a counter block of 15 bytes")        \
    X(CTR_COUNTER_17, "counter call refused, 18: a counter block of 17 bytes")        \
    X(CPUID_7_0, "CPUID leaf 7, subleaf 0")                                           \
    X(CPUID_7_0_NO_KL, "CPUID leaf 7, subleaf 0, without the KL feature")             \
    X(CPUID_7_OTHER, "CPUID leaf 7, another subleaf")                                 \
    X(CPUID_19_0, "CPUID leaf 0x19, subleaf 0")                                       \
    X(CPUID_19_OTHER, "CPUID leaf 0x19, another subleaf")                             \
    X(CPUID_19_EM, "CPUID leaf 0x19, AESKLE under CR0.EM")                            \
    X(CPUID_LOW_BYTE, "CPUID of a leaf with 7 or 0x19 in the low byte alone")         \
    X(CPUID_OTHER, "CPUID of another leaf")                                           \
    X(CPUID_CPL_0, "CPUID at CPL 0")                                                  \
    X(CPUID_CPL_1, "CPUID at CPL 1")                                                  \
    X(CPUID_CPL_2, "CPUID at CPL 2")                                                  \
    X(CPUID_CPL_3, "CPUID at CPL 3")                                                  \
    X(CPUID_1_4, "CPUID, 1 before 4")                                                 \
    X(CPUID_1_5, "CPUID, 1 before 5")                                                 \
    X(CPUID_4_5, "CPUID, 4 before 5")                                                 \
    X(CPUID_NULL, "CPUID with a null pointer for the CPU record")                     \
    X(CPUID_407, "CPUID with a CPU record of 407 bytes")                              \
    X(CPUID_409, "CPUID with a CPU record of 409 bytes")                              \
    X(POWER_ON_BAD_RECORD, "power-on over a record that refusal 1 names")             \
    X(MADE_RECORD, "calls on a record just made by hand")                             \
    X(MEMORY_FULL, "steps with 1,048,576 bytes of memory")                            \
    X(MEMORY_NONE, "steps without memory")                                            \
    X(NULL_POINTER, "null pointers for empty buffers")                                \
    X(EMPTY_BUFFER, "empty buffers that are no null pointers")                        \
    X(WIDE_REX_R, "wide uses with REX.R")                                             \
    X(LAST_CANONICAL, "handles that end with the last byte of the lower half")        \
    X(OVER_THE_TOP, "handles that run over the top of the number range")              \
    X(SIZE_TRUNCATED, "67: uses that only the truncation saves from a refusal")       \
    X(SIZE_OPENED, "67: such uses whose handle opened")                               \
    X(SIZE_REX_W, "67: such uses with REX.W whose handle opened")                     \
    X(SIZE_NOT_GP, "67: handles opened that give #GP without it")                     \
    X(SIZE_NOT_SS, "67: handles opened that give #SS without it")                     \
    X(SIZE_NOT_PF, "67: handles opened that give #PF without it")                     \
    X(SIZE_CARRY, "67: handles opened by a sum that carries out of bit 31")           \
    X(SIZE_SCALED, "67: handles opened by an index that its scale moves out of 31:0") \
    X(SIZE_ENDS_MEMORY, "67: handles opened that end with memory")                    \
    X(SIZE_PAST_MEMORY, "67: handles that end one byte behind memory")                \
    X(SIZE_BELOW_0, "67: negative displacements across 0")                            \
    X(SIZE_TO_TOP, "67: handles that end at 2^32")                                    \
    X(SIZE_OVER_TOP, "67: handles that run over 2^32")                                \
    X(LOCK_ALONE, "F0 alone")                                                         \
    X(REP_ALONE, "F3 alone")                                                          \
    X(SIZE_ALONE, "67 alone")                                                         \
    X(LOCK_SIZE_ALONE, "F0 67 alone")                                                 \
    X(LOCK_SIZE, "F0 67 and an instruction")                                          \
    X(SAME_NAME_ALLOWED, "demand 3: same name, allowed")                              \
    X(SAME_NAME_SIZE, "demand 3: same name, key size forbids")                        \
    X(SAME_NAME_PRIVILEGE, "demand 3: same name, privilege forbids")                  \
    X(SAME_NAME_DIRECTION, "demand 3: same name, direction forbids")                  \
    X(SAME_NAME_PROCESSOR, "demand 3: same name, on another processor")               \
    X(SAME_NAME_SLEPT, "demand 3: same name, loaded and encoded before a sleep")      \
    X(SAME_NAME_0, "demand 3: name 0 before and after a sleep or reset")              \
    /* these in the order of the seven before them */                                  \
    X(CTR_NAME_ALLOWED, "demand 3: counter call, same name, allowed")                 \
    X(CTR_NAME_SIZE, "demand 3: counter call, same name, key size forbids")           \
    X(CTR_NAME_PRIVILEGE, "demand 3: counter call, same name, privilege forbids")     \
    X(CTR_NAME_DIRECTION, "demand 3: counter call, same name, direction forbids")     \
    X(CTR_NAME_PROCESSOR, "demand 3: counter call, same name, on another processor")  \
    X(CTR_NAME_SLEPT, "demand 3: counter call, same name, encoded before a sleep")    \
    X(CTR_NAME_0, "demand 3: counter call, name 0 before and after a sleep or reset")

enum event {
#define EVENT(name, text) EVENT_##name,
    EVENTS(EVENT)
#undef EVENT
    EVENT_COUNT
};

static const char *const event_texts[] = {
#define EVENT(name, text) text,
    EVENTS(EVENT)
#undef EVENT
};
static const char *const origin_texts[] = {
#define ORIGIN(name, text) text,
    HANDLE_ORIGINS(ORIGIN)
#undef ORIGIN
};
static const char *const shape_texts[] = {
#define SHAPE(name, text) text,
    OPERAND_SHAPES(SHAPE)
#undef SHAPE
};
static const char *const probed_texts[] = {
#define PROBED(name, text) text,
    PROBED_EXCEPTIONS(PROBED)
#undef PROBED
};
static const char *const law_texts[] = {
#define LAW(name, text) text,
    CTR_LAWS(LAW)
#undef LAW
};
static const char *const size_texts[] = {"48 bytes", "64 bytes"};

/* lengths of a counter call's buffer that each end where something may go wrong: at blocks, at groups of eight, at the limit */
static const struct {
    size_t length;
    const char *text;
} edges[] = {
    {0, "no bytes"},    {1, "1 byte"},      {15, "15 bytes"},   {16, "16 bytes"},         {17, "17 bytes"},
    {127, "127 bytes"}, {128, "128 bytes"}, {129, "129 bytes"}, {65535, "65,535 bytes"}, {65536, "65,536 bytes"},
};
enum { EDGES = sizeof edges / sizeof *edges };

/* the bytes that counters carry out of */
static const struct {
    int byte;
    const char *text;
} carries_out[] = {{15, "byte 15"}, {12, "byte 12, past 2^32"}, {8, "byte 8, past 2^64"}, {0, "byte 0, past 2^128"}};
enum { CARRIES = sizeof carries_out / sizeof *carries_out };

static const char *const feature_texts[] = {"KL", "firmware", "wide forms", "backup registers", "NoBackup", "random source"};
static const char *const form_texts[] = {"AESENC128KL",     "AESDEC128KL",     "AESENC256KL",     "AESDEC256KL",
                                         "AESENCWIDE128KL", "AESDECWIDE128KL", "AESENCWIDE256KL", "AESDECWIDE256KL",
                                         "LOADIWKEY",       "ENCODEKEY128",    "ENCODEKEY256"};

/* The platform by its six bits: whether there are backup and store, then pending, valid, error and consumed. */
enum { STATES = 1 << 6 };
#define STATE(backup, store, pending, valid, error, consumed) ((backup) << 5 | (store) << 4 | (pending) << 3 | (valid) << 2 | (error) << 1 | (consumed))

/* those that lists of calls reach */
static const struct {
    int state;
    const char *text;
} reached[] = {
    {STATE(0, 0, 0, 0, 0, 0), "no backup"},
    {STATE(0, 0, 0, 0, 1, 0), "no backup after junk"},
    {STATE(1, 1, 0, 1, 0, 0), "a backup that a sleep left"},
    {STATE(1, 0, 1, 0, 0, 0), "pending, nothing in storage"},
    {STATE(1, 1, 1, 0, 0, 0), "pending, an older one in storage"},
    {STATE(1, 0, 1, 0, 0, 1), "pending and taken, nothing in storage"},
    {STATE(1, 1, 1, 0, 0, 1), "pending and taken, an older one in storage"},
    {STATE(1, 1, 0, 1, 0, 1), "settled well"},
    {STATE(1, 0, 0, 0, 1, 1), "settled badly"},
};
enum { REACHED = sizeof reached / sizeof *reached };

enum { SPOILS_MOST = 128 };
static unsigned long numbers[CALL_KINDS][NUMBERS], events[EVENT_COUNT], uses[USE_FORMS][2], origins[ORIGINS][2], shapes[SHAPES][2];
static unsigned long sizes[FORMS][2], sized_shapes[SHAPES][2]; /* forms without 67 and with it; operands behind 67 */
static unsigned long probed_exceptions[PROBED_COUNT][2], leaves[F_ALL + 1][2]; /* of leaf 0x19 by features and CR4.KL */
static unsigned long takens[STATES][2]; /* of any record, and in a list */
static unsigned long spoiled_alone[SPOILS_MOST], spoiled_first[SPOILS_MOST];
static unsigned long orders[2][NUMBERS][NUMBERS]; /* of all calls, and of counter calls */
static unsigned long ctr_sizes[2][2], ctr_origins[ORIGINS][2]; /* by ZF */
static unsigned long ctr_edges[EDGES][2], ctr_carries[CARRIES][2]; /* opened, by the wide bit */
static unsigned long laws[LAW_COUNT][2];

/* Which refusals a kind of call meets ("a check that a call has no operand for is skipped"). */
static bool meets(enum call_kind kind, unsigned number)
{
    switch (kind) {
    case STEP:
        return number <= R14_PF && number != R2_CODE;
    case READ:
    case WRITE:
        return number <= R1_MACHINE || number == R3_PROCESSOR || number == R5_CPU || number == R12_GP;
    case SETTLE:
    case SLEEP:
        return number <= R2_CODE;
    case CPUID:
        return number <= R1_MACHINE || number == R4_CPU_LENGTH || number == R5_CPU;
    case CTR:
        return number <= R1_MACHINE || (number >= R3_PROCESSOR && number <= R5_CPU) || number == R18_SIZE || number == R10_UD || number == R11_NM;
    default:
        return number <= R1_MACHINE;
    }
}

/* Two refusals, by their places in the checking order, that one call can meet and that can be told apart by their order. No call meets both 2 and a
 * later one, and none but a counter call 18; what cuts a string may cut the byte of 8 away; a handle is in one segment. */
static bool has_order(bool counters, unsigned first, unsigned second)
{
    uint32_t before = checking_order[first], behind = checking_order[second];
    if (first >= second || before == R2_CODE || (behind == R2_CODE && before != R1_MACHINE))
        return false;
    if (counters || before == R18_SIZE || behind == R18_SIZE)
        return meets(CTR, before) && meets(CTR, behind);
    return !(before == R8_BYTE && behind == R9_STRING_ENDS) && !(before == R12_GP && behind == R13_SS);
}

static void note(bool occurred, enum event event)
{
    events[event] += occurred;
}

static void cover_load(const struct trial *t, const struct cpu *before, const struct cpu *after)
{
    const struct machine *m = (const struct machine *)t->machine.bytes;
    bool source = before->registers[RAX][0] & 2, failed = load64(after->rflags) & ZF;
    note(!source, EVENT_LOAD_0);
    note(!source && t->call.random.length, EVENT_LOAD_0_RANDOM);
    note(source && !failed, EVENT_LOAD_1);
    note(failed, EVENT_LOAD_NOT_READY);
    note(!failed && before->registers[RAX][0] & 1, EVENT_LOAD_NO_BACKUP);
    note(!(m->features & F_FIRMWARE), EVENT_LOAD_NO_FIRMWARE);
}

static void cover_encode(const struct cpu *before, const struct instruction *instruction)
{
    note(instruction->form == ENCODEKEY128, EVENT_ENCODE_128);
    note(instruction->form == ENCODEKEY256, EVENT_ENCODE_256);
    note(before->cpl == 3 && before->registers[instruction->rm][0] & 1, EVENT_ENCODE_CPL_3);
    note(instruction->reg == instruction->rm, EVENT_ENCODE_ALIKE);
}

/* a base alone, whose lower half and a displacement that is not negative come to 2^32 or more */
static bool carries(const struct place *place, const struct cpu *cpu)
{
    if (place->base == NO_REGISTER || place->index != NO_REGISTER || place->displacement < 0)
        return false;
    return (load32(cpu->registers[place->base]) + (uint64_t)place->displacement) >> 32;
}

/* a base alone, whose lower half and a displacement come to less than 0 */
static bool borrows(const struct place *place, const struct cpu *cpu)
{
    if (place->base == NO_REGISTER || place->index != NO_REGISTER)
        return false;
    return load32(cpu->registers[place->base]) + place->displacement < 0;
}

static bool scales_out(const struct place *place, const struct cpu *cpu)
{
    return place->index != NO_REGISTER && (uint64_t)load32(cpu->registers[place->index]) << place->scale >> 32;
}

/* A use behind 67 that is done: what it would be refused for if the sum were the address. Its string begins with 67 F3. */
static void cover_sized_use(const struct trial *t, const struct cpu *before, const struct instruction *instruction, bool failed)
{
    struct instruction whole = *instruction;
    whole.address_32 = false;
    uint32_t without = handle_refusal(before, t->call.memory.length, &whole);
    uint64_t end = effective_address(instruction, before) + handle_length(instruction->form);
    if (t->meant_string)
        sized_shapes[t->operand.shape][failed]++;
    note(without != DONE, EVENT_SIZE_TRUNCATED);
    if (failed)
        return;
    note(without != DONE, EVENT_SIZE_OPENED);
    note(without == R12_GP, EVENT_SIZE_NOT_GP);
    note(without == R13_SS, EVENT_SIZE_NOT_SS);
    note(without == R14_PF, EVENT_SIZE_NOT_PF);
    note(carries(&instruction->place, before), EVENT_SIZE_CARRY);
    note(scales_out(&instruction->place, before), EVENT_SIZE_SCALED);
    note(without != DONE && t->call.string.bytes[2] >> 3 == 0x48 >> 3, EVENT_SIZE_REX_W);
    note(end == t->call.memory.length, EVENT_SIZE_ENDS_MEMORY);
}

static void cover_use(const struct trial *t, const struct cpu *before, const struct cpu *after, const struct instruction *instruction)
{
    bool failed = load64(after->rflags) & ZF;
    uses[instruction->form][failed]++;
    if (t->meant_string) {
        origins[t->origin][failed]++;
        shapes[t->operand.shape][failed]++;
        note(is_wide(instruction->form) && instruction->reg > 7, EVENT_WIDE_REX_R);
    }
    if (instruction->address_32)
        cover_sized_use(t, before, instruction, failed);
}

static void cover_refused_use(const struct trial *t, uint32_t number)
{
    uint64_t end = t->target + handle_length(t->form);
    if (!t->meant_string || number != R14_PF)
        return;
    note(end == UINT64_C(0x800000000000), EVENT_LAST_CANONICAL);
    note(end != 0 && end < handle_length(t->form), EVENT_OVER_THE_TOP);
}

/* prefixes alone, which are no idle steps, and strings with 67 that are refused for other reasons than the bytes behind it; each reason of 8 is one of the
 * spoils */
static void cover_refused_prefix(const struct trial *t, uint32_t number)
{
    const uint8_t *bytes = t->call.string.bytes;
    size_t length = t->call.string.length;
    bool behind_lock = length >= 2 && bytes[0] == 0xF0 && bytes[1] == 0x67, alone = number == R9_STRING_ENDS && length == 1;
    note(alone && bytes[0] == 0xF0, EVENT_LOCK_ALONE);
    note(alone && bytes[0] == 0xF3, EVENT_REP_ALONE);
    note(alone && bytes[0] == 0x67, EVENT_SIZE_ALONE);
    note(number == R9_STRING_ENDS && length == 2 && behind_lock, EVENT_LOCK_SIZE_ALONE);
    note(number == R10_UD && behind_lock, EVENT_LOCK_SIZE);
}

/* a use behind 67 that is outside memory */
static void cover_sized_fault(const struct trial *t)
{
    const struct cpu *cpu = (const struct cpu *)t->call.cpu.bytes;
    const uint64_t top = UINT64_C(1) << 32;
    struct instruction instruction;
    if (decode(t->call.string, &instruction) || !instruction.address_32)
        return;
    uint64_t address = effective_address(&instruction, cpu), end = address + handle_length(instruction.form);
    note(end == t->call.memory.length + 1, EVENT_SIZE_PAST_MEMORY);
    note(borrows(&instruction.place, cpu), EVENT_SIZE_BELOW_0);
    note(end == top, EVENT_SIZE_TO_TOP);
    note(address < top && end > top, EVENT_SIZE_OVER_TOP);
}

static void cover_refused_step(const struct trial *t, uint32_t number)
{
    cover_refused_use(t, number);
    cover_refused_prefix(t, number);
    if (number == R14_PF)
        cover_sized_fault(t);
}

static void cover_refused_idle(uint32_t number)
{
    note(number == R1_MACHINE, EVENT_IDLE_1);
    note(number == R3_PROCESSOR, EVENT_IDLE_3);
    note(number == R4_CPU_LENGTH, EVENT_IDLE_4);
    note(number == R5_CPU, EVENT_IDLE_5);
    note(number == R6_MEMORY, EVENT_IDLE_6);
    note(number == R7_RANDOM, EVENT_IDLE_7);
}

/* one that is done */
static void cover_idle(const struct trial *t)
{
    const uint64_t six = CF | PF | AF | ZF | SF | OF;
    const struct cpu *cpu = (const struct cpu *)t->call.cpu.bytes;
    uint8_t features = ((const struct machine *)t->machine.bytes)->features;
    note(!(features & F_KL), EVENT_IDLE_NO_KL);
    note(!(features & F_FIRMWARE), EVENT_IDLE_NO_FIRMWARE);
    note(!(cpu->control & C_CR4_KL), EVENT_IDLE_NO_CR4_KL);
    note(!(cpu->control & C_OSFXSR), EVENT_IDLE_NO_OSFXSR);
    note(cpu->control & C_EM, EVENT_IDLE_EM);
    note(cpu->control & C_TS, EVENT_IDLE_TS);
    note(true, EVENT_IDLE_CPL_0 + cpu->cpl);
    note((load64(cpu->rflags) & six) == six, EVENT_IDLE_FLAGS);
    note(t->call.memory.length == 0, EVENT_IDLE_NO_MEMORY);
    note(true, t->call.random.length ? EVENT_IDLE_RANDOM : EVENT_IDLE_NO_RANDOM);
    note(true, t->null_if_empty ? EVENT_IDLE_NULL : EVENT_IDLE_NOT_NULL);
}

static void cover_instruction(const struct trial *t, const struct run *library)
{
    const struct cpu *before = (const struct cpu *)t->call.cpu.bytes, *after = (const struct cpu *)library->call.cpu.bytes;
    struct instruction instruction;
    if (library->number) {
        cover_refused_step(t, library->number);
        return;
    }
    note(t->call.memory.length == MEMORY_LIMIT, EVENT_MEMORY_FULL);
    note(t->call.memory.length == 0, EVENT_MEMORY_NONE);
    if (decode(t->call.string, &instruction))
        return;
    sizes[instruction.form][instruction.address_32]++;
    if (instruction.form == LOADIWKEY)
        cover_load(t, before, after);
    else if (is_use(instruction.form))
        cover_use(t, before, after, &instruction);
    else
        cover_encode(before, &instruction);
}

static void cover_step(const struct trial *t, const struct run *library)
{
    if (!is_idle(&t->call))
        cover_instruction(t, library);
    else if (library->number)
        cover_refused_idle(library->number);
    else
        cover_idle(t);
}

static void cover_write(const struct trial *t, const struct machine *before, const struct machine *after)
{
    const struct processor *processor = &before->processors[t->call.processor];
    bool worked = after->processors[t->call.processor].copy_status, out = t->call.address == COPY_OUT;
    if (t->call.value == 0) {
        note(processor->copy_status, EVENT_WRITE_0);
        return;
    }
    note(out && worked, EVENT_COPY_OUT_WORKED);
    note(out && worked && before->backup.present, EVENT_COPY_OUT_AGAIN);
    note(out && processor->iwkey.no_backup && !before->pending, EVENT_COPY_OUT_NO_BACKUP);
    note(out && !processor->iwkey.no_backup && before->pending, EVENT_COPY_OUT_PENDING);
    note(!out && worked, EVENT_COPY_IN_WORKED);
    note(!out && worked && memcmp(&processor->iwkey, &before->backup.iwkey, sizeof processor->iwkey) != 0, EVENT_COPY_IN_OVER_KEY);
    note(!out && worked && before->pending, EVENT_COPY_IN_PENDING);
    note(!out && !worked, EVENT_COPY_IN_FAILED);
    note(!out && !worked && processor->copy_status, EVENT_COPY_IN_FAILED_STATUS);
}

static void cover_read(const struct trial *t, uint64_t value)
{
    bool copy = t->call.address == COPY_STATUS;
    note(copy && value == 0, EVENT_READ_STATUS_0);
    note(copy && value == 1, EVENT_READ_STATUS_1);
    note(!copy && value & 1, EVENT_READ_VALID);
    note(!copy && value & 4, EVENT_READ_ERROR);
    note(!copy && value & 8, EVENT_READ_CONSUMED);
}

static int state_of(const struct machine *m)
{
    return STATE(m->backup.present, m->store.present, m->pending, m->valid, m->error, m->consumed);
}

static bool lacks_registers(const struct machine *m)
{
    return (m->features & (F_KL | F_BACKUP)) != (F_KL | F_BACKUP);
}

static void cover_taken(const struct machine *before)
{
    takens[state_of(before)][0]++;
    note(lacks_registers(before) && before->pending && !before->consumed, EVENT_TAKEN_NO_FEATURES);
}

/* A backup that is pending and consumed has been taken: nothing else makes it so. */
void cover_listed(const struct trial *t, const struct run *library)
{
    const struct machine *before = (const struct machine *)t->machine.bytes, *after = (const struct machine *)library->machine.bytes;
    bool out = t->call.kind == WRITE && t->call.value && t->call.address == COPY_OUT, in = t->call.kind == WRITE && t->call.address == COPY_IN;
    if (library->number)
        return;
    takens[state_of(before)][1] += t->call.kind == TAKEN;
    note(is_idle(&t->call), EVENT_IDLE_LISTED);
    note(t->call.kind == CTR, EVENT_CTR_LISTED);
    if (!before->pending || !before->consumed)
        return;
    note(t->call.kind == TAKEN, EVENT_TAKEN_AGAIN);
    note(out && !after->processors[t->call.processor].copy_status, EVENT_TAKEN_COPY_OUT);
    note(in && after->processors[t->call.processor].copy_status, EVENT_TAKEN_COPY_IN);
    note(t->call.kind == READ && *library->results.value == 8, EVENT_TAKEN_READ);
    note(t->call.kind == RESET, EVENT_TAKEN_RESET);
    if (t->call.kind == SETTLE)
        note(true, EVENT_TAKEN_SETTLE_GOOD + t->call.code);
    if (t->call.kind == SLEEP)
        note(true, EVENT_TAKEN_SLEEP_OLD + t->call.code);
}

static void cover_platform(const struct trial *t, const struct machine *before)
{
    if (t->call.kind == SETTLE) {
        note(true, (before->pending ? EVENT_SETTLE_GOOD : EVENT_SETTLE_GOOD_IDLE) + t->call.code);
        note(before->pending && !before->backup.present && t->call.code == 0, EVENT_SETTLE_NO_BACKUP);
    }
    if (t->call.kind == SLEEP) {
        note(true, (before->pending ? EVENT_SLEEP_OLD_PENDING : EVENT_SLEEP_OLD) + t->call.code);
        note(before->pending && !before->backup.present && t->call.code == 1, EVENT_SLEEP_NO_BACKUP);
        note(!before->pending && before->backup.present && !before->store.present, EVENT_SLEEP_AFTER_BAD);
    }
    note(t->call.kind == RESET && before->backup.present, EVENT_RESET_BACKUP);
    note(t->call.kind != STEP && lacks_registers(before), EVENT_PLATFORM_NO_FEATURES);
}

/* on the way from the first block's counter to the last block's */
static bool carries_out_of(int byte, const uint8_t counter[COUNTER_SIZE], size_t blocks)
{
    uint64_t carry = blocks - 1;
    for (int at = COUNTER_SIZE - 1; at >= byte && blocks; at--)
        carry = (carry + counter[at]) >> 8;
    return blocks && carry;
}

static void cover_opened_ctr(const struct trial *t, const struct cpu *cpu, bool wide)
{
    uint8_t restrictions = t->call.handle.bytes[0];
    note(restrictions & 4, EVENT_CTR_NO_DECRYPTION);
    note(restrictions & 1, EVENT_CTR_CPL_0);
    note(cpu->cpl == 3, EVENT_CTR_CPL_3);
    for (int i = 0; i < EDGES; i++)
        ctr_edges[i][wide] += t->call.data.length == edges[i].length;
    for (int i = 0; i < CARRIES; i++)
        ctr_carries[i][wide] += carries_out_of(carries_out[i].byte, t->call.counter.bytes, (t->call.data.length + 15) / 16);
}

/* Why the handle did not open, where there is one reason alone. A fitting one was encoded under the IWKey. */
static void cover_unopened_ctr(const struct trial *t, const struct cpu *cpu)
{
    const uint8_t *aad = t->call.handle.bytes;
    unsigned type = aad[3] & 15, longer = t->call.handle.length == HANDLE_MOST;
    bool fitting = t->origin == HANDLE_FITTING, cpl_0_only = aad[0] & 1 && cpu->cpl, no_encryption = aad[0] & 2;
    bool other_type = type != longer, reserved = t->origin == HANDLE_RESERVED_BIT;
    note(reserved && !other_type, EVENT_CTR_RESERVED);
    note(t->origin == HANDLE_WRONG_TYPE && other_type, type < 2 ? EVENT_CTR_OTHER_TYPE : EVENT_CTR_UNKNOWN_TYPE);
    note(fitting && !other_type && cpl_0_only && !no_encryption, EVENT_CTR_CPL_0_ONLY);
    note(fitting && !other_type && !cpl_0_only && no_encryption, EVENT_CTR_NO_ENCRYPTION);
    note(t->origin == HANDLE_TAG_ONLY && !other_type, EVENT_CTR_TAG);
    note(fitting && other_type && !cpl_0_only && !no_encryption, longer ? EVENT_CTR_GROWN : EVENT_CTR_CUT);
}

static void cover_ctr(const struct trial *t, const struct run *library, uint8_t features)
{
    const uint64_t six = CF | PF | AF | ZF | SF | OF;
    const struct cpu *before = (const struct cpu *)t->call.cpu.bytes, *after = (const struct cpu *)library->call.cpu.bytes;
    bool failed = load64(after->rflags) & ZF, empty = t->call.data.length == 0;
    ctr_sizes[t->call.handle.length == HANDLE_MOST][failed]++;
    ctr_origins[t->origin][failed]++;
    note((load64(before->rflags) & six) == six, failed ? EVENT_CTR_FLAGS_1 : EVENT_CTR_FLAGS_0);
    note(empty, failed ? EVENT_CTR_EMPTY_1 : EVENT_CTR_EMPTY_0);
    note(empty, t->null_if_empty ? EVENT_CTR_NULL : EVENT_CTR_NOT_NULL);
    if (failed)
        cover_unopened_ctr(t, before);
    else
        cover_opened_ctr(t, before, features & F_WIDE);
}

static void cover_refused_size(const struct trial *t)
{
    size_t handle = t->call.handle.length, counter = t->call.counter.length;
    note(t->call.data.length == BUFFER_LIMIT + 1, EVENT_CTR_65537);
    note(handle == 0, EVENT_CTR_HANDLE_0);
    note(handle == 47, EVENT_CTR_HANDLE_47);
    note(handle == 49, EVENT_CTR_HANDLE_49);
    note(handle == 63, EVENT_CTR_HANDLE_63);
    note(handle == 65, EVENT_CTR_HANDLE_65);
    note(counter == 0, EVENT_CTR_COUNTER_0);
    note(counter == 15, EVENT_CTR_COUNTER_15);
    note(counter == 17, EVENT_CTR_COUNTER_17);
}

void cover_law(enum ctr_law law, bool longer)
{
    laws[law][longer]++;
}

static void cover_leaf(const struct trial *t, uint8_t features)
{
    const struct cpu *cpu = (const struct cpu *)t->call.cpu.bytes;
    uint32_t leaf = t->call.leaf, low = leaf & 0xFF;
    bool seven = leaf == LEAF_FEATURES, key_locker = leaf == LEAF_KEY_LOCKER, first = t->call.subleaf == 0, kl = features & F_KL;
    note(seven && first, kl ? EVENT_CPUID_7_0 : EVENT_CPUID_7_0_NO_KL);
    note(seven && !first, EVENT_CPUID_7_OTHER);
    note(key_locker, first ? EVENT_CPUID_19_0 : EVENT_CPUID_19_OTHER);
    note(key_locker && kl && features & F_FIRMWARE && cpu->control & C_CR4_KL && cpu->control & C_EM, EVENT_CPUID_19_EM);
    note(leaf > 0xFF && (low == LEAF_FEATURES || low == LEAF_KEY_LOCKER), EVENT_CPUID_LOW_BYTE);
    note(!seven && !key_locker, EVENT_CPUID_OTHER);
    note(true, EVENT_CPUID_CPL_0 + cpu->cpl);
    leaves[features][cpu->control & C_CR4_KL] += key_locker;
}

static void cover_refused_cpuid(const struct trial *t)
{
    note(t->call.cpu.length == 0 && t->null_if_empty, EVENT_CPUID_NULL);
    note(t->call.cpu.length == sizeof(struct cpu) - 1, EVENT_CPUID_407);
    note(t->call.cpu.length == sizeof(struct cpu) + 1, EVENT_CPUID_409);
}

void cover_probe(enum probed probed, bool foretold)
{
    probed_exceptions[probed][foretold]++;
}

static void cover_order(enum call_kind kind, uint32_t low, uint32_t high)
{
    orders[0][low][high]++;
    orders[1][low][high] += kind == CTR;
    note(kind == CPUID && low == R1_MACHINE && high == R4_CPU_LENGTH, EVENT_CPUID_1_4);
    note(kind == CPUID && low == R1_MACHINE && high == R5_CPU, EVENT_CPUID_1_5);
    note(kind == CPUID && low == R4_CPU_LENGTH && high == R5_CPU, EVENT_CPUID_4_5);
}

static void cover_spoils(const struct trial *t)
{
    if (t->meant == ANY_NUMBER || t->spoils[0] < 0)
        return;
    (t->spoils[1] < 0 ? spoiled_alone : spoiled_first)[t->spoils[0]]++;
    if (t->spoils[1] >= 0)
        cover_order(t->call.kind, spoils[t->spoils[0]].number, spoils[t->spoils[1]].number);
}

static void note_empty(const struct trial *t)
{
    const struct call *c = &t->call;
    bool empty = t->machine.length == 0 || (c->kind == STEP && (!c->cpu.length || !c->memory.length || !c->random.length || !c->string.length)) ||
                 (c->kind == CPUID && !c->cpu.length) ||
                 (c->kind == CTR && (!c->cpu.length || !c->handle.length || !c->counter.length || !c->data.length));
    note(empty && t->null_if_empty, EVENT_NULL_POINTER);
    note(empty && !t->null_if_empty, EVENT_EMPTY_BUFFER);
}

void cover_call(const struct trial *t, const struct run *library)
{
    const struct machine *before = (const struct machine *)t->machine.bytes, *after = (const struct machine *)library->machine.bytes;
    numbers[t->call.kind][library->number]++;
    cover_spoils(t);
    note(t->made, EVENT_MADE_RECORD);
    note_empty(t);
    if (t->call.kind == STEP)
        cover_step(t, library);
    if (t->call.kind == CPUID && library->number == R4_CPU_LENGTH)
        cover_refused_cpuid(t);
    if (library->number == R18_SIZE)
        cover_refused_size(t);
    if (library->number)
        return;
    if (t->call.kind == POWER_ON)
        note(machine_refused(t->machine), EVENT_POWER_ON_BAD_RECORD);
    else if (t->call.kind == READ)
        cover_read(t, *library->results.value);
    else if (t->call.kind == WRITE)
        cover_write(t, before, after);
    else if (t->call.kind == CPUID)
        cover_leaf(t, before->features);
    else if (t->call.kind == CTR)
        cover_ctr(t, library, before->features);
    else if (t->call.kind == TAKEN)
        cover_taken(before);
    else
        cover_platform(t, before);
}

void cover_judged(const struct history *history, const struct trial *t, const struct judged *judged)
{
    const struct encode *encode = judged->encode;
    bool slept = encode->call < history->last_sleep;
    int further = t->call.kind == CTR ? EVENT_CTR_NAME_ALLOWED - EVENT_SAME_NAME_ALLOWED : 0;
    note(judged->size && judged->privilege && judged->direction, EVENT_SAME_NAME_ALLOWED + further);
    note(!judged->size, EVENT_SAME_NAME_SIZE + further);
    note(judged->size && !judged->privilege && judged->direction, EVENT_SAME_NAME_PRIVILEGE + further);
    note(judged->size && judged->privilege && !judged->direction, EVENT_SAME_NAME_DIRECTION + further);
    note(encode->processor != t->call.processor, EVENT_SAME_NAME_PROCESSOR + further);
    note(slept && encode->name != 0, EVENT_SAME_NAME_SLEPT + further);
    note(slept && encode->name == 0, EVENT_SAME_NAME_0 + further);
}

static void print_pairs(const char *title, const char *first, const char *second, const char *const *texts, unsigned long (*pairs)[2], int count)
{
    printf("\n%-56s %10s %10s\n", title, first, second);
    for (int i = 0; i < count; i++)
        printf("  %-54s %10lu %10lu\n", texts[i], pairs[i][0], pairs[i][1]);
}

static void print_numbers(void)
{
    printf("\nanswers   %7d", DONE);
    for (int i = 0; i < REFUSALS; i++)
        printf("%7u", checking_order[i]);
    for (int kind = 0; kind < CALL_KINDS; kind++) {
        printf("\n%-10s%7lu", call_names[kind], numbers[kind][DONE]);
        for (int i = 0; i < REFUSALS; i++)
            if (meets((enum call_kind)kind, checking_order[i]))
                printf("%7lu", numbers[kind][checking_order[i]]);
            else
                printf("%7s", "-");
    }
    printf("\n");
}

static void print_orders(const char *title, bool counters)
{
    printf("\n%s: the row's came before the column's\n          ", title);
    for (int i = 1; i < REFUSALS; i++)
        printf("%7u", checking_order[i]);
    for (unsigned first = 0; first < REFUSALS - 1; first++) {
        printf("\n%-10u", checking_order[first]);
        for (unsigned second = 1; second < REFUSALS; second++)
            if (has_order(counters, first, second))
                printf("%7lu", orders[counters][checking_order[first]][checking_order[second]]);
            else
                printf("%7s", first < second ? "-" : "");
    }
    printf("\n");
}

/* which machines were asked, by one feature and CR4.KL */
static void print_leaves(const char *title, unsigned set)
{
    unsigned long pairs[6][2] = {0};
    for (unsigned feature = 0; feature < 6; feature++)
        for (unsigned features = 0; features <= F_ALL; features++)
            for (int cr4_kl = 0; cr4_kl < 2; cr4_kl++)
                pairs[feature][cr4_kl] += (features >> feature & 1) == set ? leaves[features][cr4_kl] : 0;
    print_pairs(title, "CR4.KL 0", "CR4.KL 1", feature_texts, pairs, 6);
}

static void print_takens(void)
{
    unsigned long pairs[REACHED][2];
    const char *texts[REACHED];
    unsigned long least = takens[0][0];
    for (int i = 0; i < REACHED; i++) {
        memcpy(pairs[i], takens[reached[i].state], sizeof pairs[i]);
        texts[i] = reached[i].text;
    }
    for (int state = 0; state < STATES; state++)
        least = takens[state][0] < least ? takens[state][0] : least;
    print_pairs("taken", "any record", "in a list", texts, pairs, REACHED);
    printf("  %-54s %10lu\n", "the rarest of all 64 states", least);
}

static void print_ctr(void)
{
    const char *edge_texts[EDGES], *carry_texts[CARRIES];
    for (int i = 0; i < EDGES; i++)
        edge_texts[i] = edges[i].text;
    for (int i = 0; i < CARRIES; i++)
        carry_texts[i] = carries_out[i].text;
    print_pairs("counter calls by the handle's size", "ZF 0", "ZF 1", size_texts, ctr_sizes, 2);
    print_pairs("counter calls with handles", "ZF 0", "ZF 1", origin_texts, ctr_origins, ORIGINS);
    print_pairs("counter calls opened, over", "wide off", "wide on", edge_texts, ctr_edges, EDGES);
    print_pairs("counter calls opened, carrying out of", "wide off", "wide on", carry_texts, ctr_carries, CARRIES);
    print_pairs("counter calls as the library itself has them", "48 bytes", "64 bytes", law_texts, laws, LAW_COUNT);
}

void print_coverage(void)
{
    print_numbers();
    print_orders("two refusals", false);
    print_orders("two refusals of counter calls", true);
    print_pairs("uses", "ZF 0", "ZF 1", form_texts, uses, USE_FORMS);
    print_pairs("uses of handles", "ZF 0", "ZF 1", origin_texts, origins, ORIGINS);
    print_pairs("uses by operand", "ZF 0", "ZF 1", shape_texts, shapes, SHAPES);
    print_pairs("uses by operand behind 67", "ZF 0", "ZF 1", shape_texts, sized_shapes, SHAPES);
    print_pairs("instructions done", "plain", "behind 67", form_texts, sizes, FORMS);
    print_pairs("exceptions as the library's CPUID foretells", "none", "raised", probed_texts, probed_exceptions, PROBED_COUNT);
    print_leaves("CPUID leaf 0x19 without the feature", 0);
    print_leaves("CPUID leaf 0x19 with the feature", 1);
    print_takens();
    print_ctr();
    printf("\n%-56s %10s %10s\n", "reasons of refusals", "alone", "first of 2");
    for (int i = 0; i < spoil_count; i++)
        printf("  %2u %-51s %10lu %10lu\n", spoils[i].number, spoils[i].reason, spoiled_alone[i], spoiled_first[i]);
    printf("\nevents\n");
    for (int i = 0; i < EVENT_COUNT; i++)
        printf("  %-65s %10lu\n", event_texts[i], events[i]);
}

static bool need(unsigned long count, const char *what, const char *text)
{
    if (count == 0)
        printf("never occurred: %s: %s\n", what, text);
    return count != 0;
}

/* an origin whose handles do not open */
static bool is_damaged(int origin)
{
    return origin != HANDLE_FITTING && origin != HANDLE_COUNTER_WRAPS;
}

/* every combination of features, with CR4.KL off and on */
static bool leaves_are_full(void)
{
    bool full = true;
    for (unsigned features = 0; features <= F_ALL; features++)
        for (int cr4_kl = 0; cr4_kl < 2; cr4_kl++) {
            char text[48];
            snprintf(text, sizeof text, "features 0x%02x, CR4.KL %d", features, cr4_kl);
            full &= need(leaves[features][cr4_kl], "CPUID leaf 0x19", text);
        }
    return full;
}

/* every state, and in lists those that they reach; no other ones there, or the table above is wrong */
static bool takens_are_full(void)
{
    bool full = true;
    unsigned long in_lists = 0;
    for (int state = 0; state < STATES; state++) {
        char text[80];
        snprintf(text, sizeof text, "backup %d, store %d, pending %d, valid %d, error %d, consumed %d", state >> 5, state >> 4 & 1, state >> 3 & 1,
                 state >> 2 & 1, state >> 1 & 1, state & 1);
        full &= need(takens[state][0], "taken", text);
        in_lists += takens[state][1];
    }
    for (int i = 0; i < REACHED; i++) {
        full &= need(takens[reached[i].state][1], "taken in a list", reached[i].text);
        in_lists -= takens[reached[i].state][1];
    }
    if (in_lists)
        printf("a list reached a state that none does\n");
    return full && !in_lists;
}

static bool orders_are_full(bool counters)
{
    bool full = true;
    for (unsigned first = 0; first < REFUSALS; first++)
        for (unsigned second = 0; second < REFUSALS; second++) {
            char text[32];
            uint32_t before = checking_order[first], behind = checking_order[second];
            snprintf(text, sizeof text, "%u before %u", before, behind);
            full &= !has_order(counters, first, second) || need(orders[counters][before][behind], counters ? "order of a counter call" : "order", text);
        }
    return full;
}

static bool numbers_are_full(void)
{
    bool full = true;
    for (int kind = 0; kind < CALL_KINDS; kind++)
        for (unsigned number = 0; number < NUMBERS; number++) {
            char text[32];
            snprintf(text, sizeof text, "%s %u", call_names[kind], number);
            full &= !meets((enum call_kind)kind, number) || need(numbers[kind][number], "answer", text);
        }
    return full;
}

/* Each size and origin with its ZF; each edge and carry, and each law, both ways. */
static bool ctr_is_full(void)
{
    bool full = true;
    for (int i = 0; i < 2; i++)
        full &= need(ctr_sizes[i][0], "counter call, ZF 0", size_texts[i]) && need(ctr_sizes[i][1], "counter call, ZF 1", size_texts[i]);
    for (int i = 0; i < ORIGINS; i++)
        full &= need(ctr_origins[i][is_damaged(i)], "counter call, handles", origin_texts[i]);
    for (int i = 0; i < EDGES; i++)
        full &= need(ctr_edges[i][0], "wide off", edges[i].text) && need(ctr_edges[i][1], "wide on", edges[i].text);
    for (int i = 0; i < CARRIES; i++)
        full &= need(ctr_carries[i][0], "wide off, carry", carries_out[i].text) && need(ctr_carries[i][1], "wide on, carry", carries_out[i].text);
    for (int i = 0; i < LAW_COUNT; i++)
        full &= need(laws[i][0], "48 bytes", law_texts[i]) && need(laws[i][1], "64 bytes", law_texts[i]);
    return full;
}

bool coverage_is_full(void)
{
    bool full = leaves_are_full() & takens_are_full() & numbers_are_full() & orders_are_full(false) & orders_are_full(true) & ctr_is_full();
    for (int i = 0; i < USE_FORMS; i++)
        full &= need(uses[i][0], "ZF 0", form_texts[i]) && need(uses[i][1], "ZF 1", form_texts[i]);
    for (int i = 0; i < ORIGINS; i++)
        full &= need(origins[i][is_damaged(i)], "handles", origin_texts[i]);
    for (int i = 0; i < SHAPES; i++)
        full &= need(shapes[i][0], "ZF 0 with operand", shape_texts[i]) && need(sized_shapes[i][0], "ZF 0 with 67 and operand", shape_texts[i]);
    for (int i = 0; i < FORMS; i++)
        full &= need(sizes[i][0], "done without 67", form_texts[i]) && need(sizes[i][1], "done with 67", form_texts[i]);
    for (int i = 0; i < PROBED_COUNT; i++)
        full &= need(probed_exceptions[i][0], "no", probed_texts[i]) && need(probed_exceptions[i][1], "foretold", probed_texts[i]);
    for (int i = 0; i < spoil_count; i++)
        full &= need(spoiled_alone[i], "reason", spoils[i].reason);
    for (int i = 0; i < EVENT_COUNT; i++)
        full &= need(events[i], "event", event_texts[i]);
    return full;
}
