#include "refusals.h"

#include <string.h>

#include "faults.h"

const uint32_t checking_order[REFUSALS] = {R1_MACHINE, R2_CODE, R3_PROCESSOR,   R4_CPU_LENGTH, R5_CPU, R18_SIZE, R6_MEMORY, R7_RANDOM,
                                           R8_BYTE,    R9_STRING_ENDS, R10_UD, R11_NM,        R12_GP, R13_SS,   R14_PF};

static bool all_zero(const void *bytes, size_t length)
{
    for (size_t i = 0; i < length; i++)
        if (((const uint8_t *)bytes)[i])
            return false;
    return true;
}

bool power_on_refused(size_t machine_length, uint8_t count, uint8_t features)
{
    return machine_length != sizeof(struct machine) || count < 1 || count > (FAULT(COUNT_17) ? 17 : PROCESSORS) || features > F_ALL;
}

static bool iwkey_refused(const struct iwkey *iwkey)
{
    return iwkey->source > 1 || iwkey->no_backup > 1;
}

static bool entry_refused(const struct processor *entry, bool exists)
{
    if (exists)
        return iwkey_refused(&entry->iwkey) || entry->copy_status > 1;
    if (FAULT(PAST_COUNT_UNREAD))
        return false;
    return !all_zero(&entry->iwkey, sizeof entry->iwkey) || entry->copy_status > (FAULT(PAST_COUNT_STATUS) ? 1 : 0);
}

static bool platform_key_refused(const struct platform_key *key)
{
    if (key->present > 1 && !FAULT(PRESENCE_ABOVE_1))
        return true;
    if (key->present)
        return iwkey_refused(&key->iwkey);
    return !FAULT(ABSENT_IWKEY_UNREAD) && !all_zero(&key->iwkey, sizeof key->iwkey);
}

bool machine_refused(struct buffer machine)
{
    struct machine m;
    if (machine.length != sizeof m)
        return true;
    memcpy(&m, machine.bytes, sizeof m);
    if (m.count < 1 || m.count > PROCESSORS || m.features > F_ALL)
        return true;
    for (int i = 0; i < PROCESSORS; i++)
        if (entry_refused(&m.processors[i], i < m.count))
            return true;
    return platform_key_refused(&m.backup) || platform_key_refused(&m.store) || m.pending > 1 || m.valid > 1 || m.error > 1 || m.consumed > 1;
}

/* 3, 5 (the CPL argument), 12 */
static uint32_t register_refusal(uint8_t count, uint8_t features, const struct call *call)
{
    bool to_read = call->address == COPY_STATUS || call->address == BACKUP_STATUS;
    bool to_write = call->address == COPY_OUT || call->address == COPY_IN;
    uint64_t value = FAULT(REGISTER_BIT_63) ? (uint32_t)call->value : call->value;
    if (call->processor >= count)
        return R3_PROCESSOR;
    if (call->cpl > 3 && !(FAULT(REGISTER_BEFORE_CPL) && !to_read && !to_write))
        return R5_CPU;
    if (call->cpl > 0 || !(features & F_BACKUP) || (!(features & F_KL) && !FAULT(REGISTER_WITHOUT_KL)))
        return R12_GP;
    if (call->kind == READ ? !to_read : !to_write)
        return R12_GP;
    return call->kind == WRITE && value > 1 ? R12_GP : DONE;
}

/* #UD: LOADIWKEY alone does not need the firmware bit (343965-001US section 3.12.5) */
static bool undefined(uint8_t features, const struct cpu *cpu, const struct instruction *instruction)
{
    if (FAULT(UD_ALWAYS))
        return true;
    if (instruction->lock || !(features & F_KL) || !(cpu->control & C_CR4_KL) || cpu->control & C_EM || !(cpu->control & C_OSFXSR))
        return true;
    if ((instruction->form != LOADIWKEY || FAULT(FIRMWARE_FOR_LOAD)) && !(features & F_FIRMWARE))
        return true;
    return is_wide(instruction->form) && !(features & F_WIDE);
}

static bool load_refused(uint8_t features, const struct cpu *cpu)
{
    uint64_t rax = load64(cpu->registers[RAX]);
    uint32_t eax = (uint32_t)rax, source = eax >> 1 & 15;
    if (cpu->cpl > (FAULT(LOAD_AT_CPL_1) ? 2 : 0) || source > 1 || eax >> 5 || (FAULT(RAX_OF_64_BITS) && rax >> 32))
        return true;
    return (eax & 1 && !(features & F_NO_BACKUP)) || (source == 1 && !(features & F_RANDOM));
}

static bool encode_refused(const struct cpu *cpu, const struct instruction *instruction)
{
    uint64_t source = load64(cpu->registers[instruction->rm]);
    if (FAULT(CPL0_ENCODE_REFUSED) && source & 1 && cpu->cpl == 3)
        return true;
    return (FAULT(SOURCE_OF_64_BITS) ? source : (uint32_t)source) > 7;
}

/* bits 63:47 alike */
static bool canonical(uint64_t address)
{
    return address >> 47 == 0 || address >> 47 == 0x1FFFF;
}

/* The address that is asked for being canonical is the one that is loaded from: with 67 always canonical. */
static uint64_t tested_address(const struct instruction *instruction, const struct cpu *cpu)
{
    struct instruction tested = *instruction;
    if (FAULT(CANONICAL_BEFORE_SIZE))
        tested.address_32 = false;
    return effective_address(&tested, cpu);
}

/* All bytes are tested for being canonical before any is tested against memory (K2). */
uint32_t handle_refusal(const struct cpu *cpu, size_t memory_length, const struct instruction *instruction)
{
    uint64_t address = effective_address(instruction, cpu), tested = tested_address(instruction, cpu);
    size_t length = handle_length(instruction->form);
    size_t first = FAULT(FIRST_BYTE_CANONICAL) ? 1 : FAULT(CANONICAL_48) ? 48 : length;
    for (size_t i = 0; i < length && FAULT(PF_BEFORE_GP); i++)
        if (address + i >= memory_length)
            return R14_PF;
    for (size_t i = 0; i < first; i++)
        if (!canonical(tested + i))
            return in_stack_segment(&instruction->place) ? R13_SS : R12_GP;
    for (size_t i = 0; i < (FAULT(MEMORY_48) ? 48 : length); i++)
        if (address + i >= memory_length)
            return R14_PF;
    return DONE;
}

/* 12 to 14 */
static uint32_t operand_refusal(uint8_t features, const struct cpu *cpu, size_t memory_length, const struct instruction *instruction)
{
    if (instruction->form == LOADIWKEY)
        return load_refused(features, cpu) ? R12_GP : DONE;
    if (!is_use(instruction->form))
        return encode_refused(cpu, instruction) ? R12_GP : DONE;
    return handle_refusal(cpu, memory_length, instruction);
}

static bool zero_field_set(const struct cpu *cpu)
{
    size_t zeros = sizeof cpu->zeros - (FAULT(LAST_ZERO_FREE) ? 1 : 0);
    return (cpu->control > C_ALL && !FAULT(CONTROL_BITS_FREE)) || !all_zero(cpu->zeros, zeros);
}

static bool cpu_refused(const struct cpu *cpu)
{
    return cpu->cpl > 3 || zero_field_set(cpu);
}

/* 4, 5: CPUID has no operand but the CPU record that can be wrong, and any CPL */
static uint32_t cpuid_refusal(struct buffer record)
{
    struct cpu cpu;
    uint8_t most = FAULT(CPUID_CPL_4) ? 4 : FAULT(CPUID_AT_CPL_0) ? 0 : 3;
    size_t cpl = offsetof(struct cpu, cpl);
    if (FAULT(CPUID_5_BEFORE_4) && record.length > cpl && record.bytes[cpl] > 3)
        return R5_CPU;
    if (record.length != sizeof cpu)
        return R4_CPU_LENGTH;
    memcpy(&cpu, record.bytes, sizeof cpu);
    return cpu.cpl > most || (zero_field_set(&cpu) && !FAULT(CPUID_CPL_ALONE)) ? R5_CPU : DONE;
}

static bool random_refused(const struct call *call)
{
    struct instruction instruction;
    size_t length = call->random.length;
    if (FAULT(STRING_BEFORE_RANDOM) && decode(call->string, &instruction))
        return false;
    return length != 0 && length != RANDOM_SIZE && !(FAULT(RANDOM_LENGTH) && length > RANDOM_SIZE);
}

/* 3 to 5: processor and CPU record */
static uint32_t processor_refusal(uint8_t count, const struct call *call)
{
    struct cpu cpu;
    if (call->processor >= count && !(FAULT(CPU_BEFORE_PROCESSOR) && call->cpu.length != sizeof cpu))
        return R3_PROCESSOR;
    if (call->cpu.length != sizeof cpu)
        return R4_CPU_LENGTH;
    memcpy(&cpu, call->cpu.bytes, sizeof cpu);
    return cpu_refused(&cpu) ? R5_CPU : DONE;
}

/* 3 to 7: what is lent to a step, whatever its string */
static uint32_t lent_refusal(uint8_t count, const struct call *call)
{
    uint32_t refusal = processor_refusal(count, call);
    if (refusal)
        return refusal;
    if (call->memory.length > MEMORY_LIMIT + (FAULT(MEMORY_LIMIT) ? 1 : 0))
        return R6_MEMORY;
    return random_refused(call) ? R7_RANDOM : DONE;
}

/* which of 3 to 7 a fault leaves out for idle steps */
static bool idle_passes(uint32_t refusal)
{
    return (FAULT(IDLE_ANY_PROCESSOR) && refusal == R3_PROCESSOR) || (FAULT(IDLE_ANY_CPU_LENGTH) && refusal == R4_CPU_LENGTH) ||
           (FAULT(IDLE_ANY_CPU) && refusal == R5_CPU) || (FAULT(IDLE_ANY_MEMORY) && refusal == R6_MEMORY) ||
           (FAULT(IDLE_ANY_RANDOM) && refusal == R7_RANDOM);
}

/* none without a fault: from 8 on they are about an instruction */
static uint32_t idle_refusal(uint8_t features, const struct cpu *cpu)
{
    if ((FAULT(IDLE_NEEDS_KL) && !(features & F_KL)) || (FAULT(IDLE_NEEDS_FIRMWARE) && !(features & F_FIRMWARE)))
        return R10_UD;
    if ((FAULT(IDLE_NEEDS_CR4_KL) && !(cpu->control & C_CR4_KL)) || (FAULT(IDLE_NEEDS_OSFXSR) && !(cpu->control & C_OSFXSR)))
        return R10_UD;
    if (FAULT(IDLE_EM) && cpu->control & C_EM)
        return R10_UD;
    if (FAULT(IDLE_TS) && cpu->control & C_TS)
        return R11_NM;
    return FAULT(IDLE_AT_CPL_0) && cpu->cpl > 0 ? R12_GP : DONE;
}

/* 3 to 14 */
static uint32_t step_refusal(uint8_t count, uint8_t features, const struct call *call, struct instruction *instruction)
{
    struct cpu cpu;
    uint32_t refusal = lent_refusal(count, call);
    if (is_idle(call) && idle_passes(refusal))
        return decode(call->string, instruction);
    if (refusal || (refusal = decode(call->string, instruction)))
        return refusal;
    memcpy(&cpu, call->cpu.bytes, sizeof cpu);
    if (instruction->form == IDLE)
        return idle_refusal(features, &cpu);
    if (FAULT(NM_BEFORE_UD) && cpu.control & C_TS)
        return R11_NM;
    if (undefined(features, &cpu, instruction))
        return R10_UD;
    if (cpu.control & C_TS)
        return R11_NM;
    return operand_refusal(features, &cpu, call->memory.length, instruction);
}

/* 18 of a handle: the 48 bytes of an AES-128 key's or the 64 of an AES-256 key's */
static bool ctr_handle_refused(size_t length)
{
    if ((FAULT(CTR_HANDLE_BETWEEN) && length > 48 && length < 64) || (FAULT(CTR_HANDLE_LONGER) && length > 64))
        return false;
    return length != 48 && length != 64;
}

/* 18 */
static bool size_refused(const struct call *call)
{
    size_t length = call->data.length, counter = call->counter.length;
    if (length > BUFFER_LIMIT + (FAULT(CTR_65537_TAKEN) ? 1 : 0) || (FAULT(CTR_65536_REFUSED) && length == BUFFER_LIMIT))
        return true;
    if ((FAULT(CTR_WHOLE_BLOCKS) && length % 16) || (FAULT(CTR_EMPTY_REFUSED) && length == 0))
        return true;
    if (counter != COUNTER_SIZE && !(FAULT(CTR_COUNTER_LONGER) && counter > COUNTER_SIZE))
        return true;
    return ctr_handle_refused(call->handle.length);
}

enum form ctr_form(const struct call *call)
{
    return call->handle.length == 48 ? AESENC128KL : AESENC256KL;
}

/* 10 and 11 as for the single form of the handle's size; the wide bit is not asked */
static uint32_t ctr_fault(uint8_t features, const struct call *call)
{
    struct cpu cpu;
    struct instruction single = {.form = ctr_form(call)};
    memcpy(&cpu, call->cpu.bytes, sizeof cpu);
    if (FAULT(CTR_WIDE_ASKED) && !(features & F_WIDE))
        return R10_UD;
    if (FAULT(CTR_FIRMWARE_OFF))
        features |= F_FIRMWARE;
    if (FAULT(CTR_NM_BEFORE_UD) && cpu.control & C_TS)
        return R11_NM;
    if (undefined(features, &cpu, &single))
        return R10_UD;
    if (FAULT(CTR_SIZE_BEHIND_UD) && size_refused(call))
        return R18_SIZE;
    return cpu.control & C_TS && !FAULT(CTR_TS_IGNORED) ? R11_NM : DONE;
}

/* 3 to 5, 18, 10, 11 */
static uint32_t ctr_refusal(uint8_t count, uint8_t features, const struct call *call)
{
    bool processor_good = call->processor < count, early = processor_good && size_refused(call);
    if (FAULT(CTR_SIZE_BEFORE_CPU) && early)
        return R18_SIZE;
    if (FAULT(CTR_SIZE_BEFORE_FIELDS) && early && call->cpu.length == sizeof(struct cpu))
        return R18_SIZE;
    uint32_t refusal = processor_refusal(count, call);
    if (refusal)
        return refusal;
    if (size_refused(call) && !FAULT(CTR_SIZE_BEHIND_UD) && !FAULT(CTR_SIZE_BEHIND_NM))
        return R18_SIZE;
    refusal = ctr_fault(features, call);
    return !refusal && size_refused(call) ? R18_SIZE : refusal;
}

uint32_t call_refusal(uint8_t count, uint8_t features, const struct call *call, struct instruction *instruction)
{
    switch (call->kind) {
    case STEP:
        return step_refusal(count, features, call, instruction);
    case READ:
    case WRITE:
        return register_refusal(count, features, call);
    case SETTLE:
        return call->code > 1 ? R2_CODE : DONE;
    case SLEEP:
        return call->code > (FAULT(WAKE_CODE_3) ? 3 : 2) ? R2_CODE : DONE;
    case CPUID:
        return cpuid_refusal(call->cpu);
    case CTR:
        return ctr_refusal(count, features, call);
    default:
        return DONE;
    }
}
