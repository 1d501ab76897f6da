#include "machine.h"

#include <string.h>

#include "aes.h"
#include "cpuid.h"
#include "ctr.h"
#include "faults.h"
#include "handle.h"
#include "refusals.h"

/* Power-on (house): IWKeys all zero, backup and store absent, all bits 0. */
static void power_on(struct machine *m, uint8_t count, uint8_t features)
{
    memset(m, 0, sizeof *m);
    m->count = count;
    m->features = features;
}

/* ZF as given, the other five flags 0, all other bits of RFLAGS kept */
static void set_flags(struct cpu *cpu, bool zf)
{
    uint64_t flags = load64(cpu->rflags);
    flags &= ~(uint64_t)(CF | PF | AF | ZF | SF | (FAULT(OF_KEPT) ? 0 : OF) | (FAULT(SEVENTH_FLAG) ? DF : 0));
    store64(cpu->rflags, flags | (zf ? ZF : 0));
}

static void encodekey(const struct machine *m, const struct iwkey *iwkey, struct cpu *cpu, const struct instruction *instruction)
{
    uint8_t aad[AAD_SIZE] = {0}, key[32], handle[HANDLE_MOST];
    size_t length = key_length(instruction->form);
    uint64_t kept = load64(cpu->registers[instruction->reg]) >> 32 << 32;
    unsigned no_backup = FAULT(NO_BACKUP_FROM_FEATURES) ? (m->features & F_NO_BACKUP) != 0 : iwkey->no_backup;
    aad[0] = cpu->registers[instruction->rm][0] & 7;
    aad[3] = length == 32;
    memcpy(key, cpu->xmm[0], 16);
    memcpy(key + 16, cpu->xmm[1], 16);
    wrap(iwkey, aad, key, length, handle);
    memcpy(cpu->xmm, handle, HANDLE_HEAD + length);
    if (FAULT(XMM3_CLEARED) && length == 16)
        memset(cpu->xmm[3], 0, 16);
    memset(cpu->xmm[4], 0, (FAULT(XMM6_KEPT) ? 2 : 3) * 16);
    store64(cpu->registers[instruction->reg], (no_backup + 2 * iwkey->source) | (FAULT(DESTINATION_OF_32_BITS) ? kept : 0));
    set_flags(cpu, false);
}

/* AAD bits 0 to 2: CPL 0 only, no encryption, no decryption; 27:24 key type; the rest reserved */
static bool legal(const uint8_t aad[AAD_SIZE], enum form form, uint8_t cpl)
{
    unsigned type = key_length(form) == 32, forbidden = is_decryption(form) != FAULT(DIRECTIONS_EXCHANGED) ? 4 : 2;
    bool reserved = (aad[0] & ~7) || aad[1] || aad[2] || aad[3] >> 4;
    for (int i = 4; i < AAD_SIZE; i++)
        reserved |= aad[i] != 0;
    if (reserved && !FAULT(RESERVED_AAD))
        return false;
    if ((aad[3] & 15) != type && !FAULT(KEY_TYPE))
        return false;
    if (aad[0] & 1 && cpl > (FAULT(CPL0_ONLY_AT_3) ? 2 : 0))
        return false;
    return !(aad[0] & forbidden);
}

static void do_block(enum form form, const uint8_t *key, uint8_t block[16])
{
    if (is_decryption(form) && !FAULT(DECRYPTION_ENCRYPTS))
        aes_decrypt(key, key_length(form), block, block);
    else
        aes_encrypt(key, key_length(form), block, block);
}

/* Only where unwrapping hands out a key is a block touched. Says whether it did. */
static bool use_handle(const struct iwkey *iwkey, struct cpu *cpu, const uint8_t *memory, const struct instruction *instruction)
{
    enum form form = instruction->form;
    const uint8_t *handle = memory + effective_address(instruction, cpu);
    unsigned first = is_wide(form) ? 0 : instruction->reg, blocks = is_wide(form) ? (FAULT(WIDE_SEVEN) ? 7 : 8) : 1;
    uint8_t key[32];
    bool opened = !FAULT(NEVER_OPENED) && legal(handle, form, cpu->cpl) && unwrap(iwkey, handle, key_length(form), key);
    set_flags(cpu, !opened && !FAULT(ALWAYS_OPENED));
    for (unsigned i = first; i < first + blocks; i++) {
        if (opened)
            do_block(form, key, cpu->xmm[i]);
        else if (FAULT(BLOCKS_ZEROED))
            memset(cpu->xmm[i], 0, 16);
    }
    return opened;
}

static unsigned asked_source(const struct cpu *cpu)
{
    return cpu->registers[RAX][0] >> 1 & 15;
}

bool not_ready(const struct cpu *cpu, struct buffer random)
{
    return asked_source(cpu) == 1 && random.length == 0;
}

/* Encryption key low half SRC2, high half SRC1; integrity key XMM0; random bytes in that order. */
struct iwkey loaded_iwkey(const struct cpu *cpu, const struct instruction *instruction, const uint8_t *random)
{
    struct iwkey iwkey = {.source = (uint8_t)asked_source(cpu), .no_backup = cpu->registers[RAX][0] & 1};
    unsigned low = FAULT(SOURCES_EXCHANGED) ? instruction->reg : instruction->rm, high = low == instruction->rm ? instruction->reg : instruction->rm;
    memcpy(iwkey.encryption, cpu->xmm[low], 16);
    memcpy(iwkey.encryption + 16, cpu->xmm[high], 16);
    memcpy(iwkey.integrity, cpu->xmm[0], 16);
    if (iwkey.source == 0 && !(FAULT(RANDOM_AT_SOURCE_0) && random))
        return iwkey;
    for (int i = 0; i < 16; i++) {
        iwkey.encryption[i] ^= random[FAULT(RANDOM_ORDER) ? 16 + i : i];
        iwkey.encryption[16 + i] ^= random[FAULT(RANDOM_ORDER) ? 32 + i : 16 + i];
        iwkey.integrity[i] ^= random[FAULT(RANDOM_ORDER) ? i : 32 + i];
    }
    return iwkey;
}

static void loadiwkey(struct processor *processor, struct cpu *cpu, struct buffer random, const struct instruction *instruction)
{
    static const uint8_t none[RANDOM_SIZE];
    bool refused = not_ready(cpu, random);
    if (FAULT(LOAD_CLEARS_STATUS))
        processor->copy_status = 0;
    if (!refused)
        processor->iwkey = loaded_iwkey(cpu, instruction, random.length ? random.bytes : NULL);
    else if (FAULT(NOT_READY_LOADS))
        processor->iwkey = loaded_iwkey(cpu, instruction, none);
    set_flags(cpu, refused);
}

/* RIP is of 64 bits with 67 too, which counts in the length */
static uint64_t next_rip(uint64_t rip, const struct instruction *instruction)
{
    uint64_t next = rip + instruction->length - (FAULT(ADDRESS_SIZE_NOT_IN_RIP) && instruction->address_32 ? 1 : 0);
    return FAULT(ADDRESS_SIZE_TRUNCATES_RIP) && instruction->address_32 ? (uint32_t)next : next;
}

/* nothing without a fault */
static void idle(struct machine *m, const struct call *call)
{
    struct cpu *cpu = (struct cpu *)call->cpu.bytes;
    if (FAULT(IDLE_MOVES_RIP))
        store64(cpu->rip, load64(cpu->rip) + 1);
    if (FAULT(IDLE_CLEARS_FLAGS))
        set_flags(cpu, false);
    if (FAULT(IDLE_SETS_ZF))
        store64(cpu->rflags, load64(cpu->rflags) | ZF);
    if (FAULT(IDLE_CLEARS_STATUS))
        m->processors[call->processor].copy_status = 0;
}

static void step(struct machine *m, struct call *call, const struct instruction *instruction)
{
    struct processor *processor = &m->processors[call->processor];
    const struct iwkey *iwkey = FAULT(WRONG_PROCESSOR) ? &m->processors[0].iwkey : &processor->iwkey;
    struct cpu cpu;
    bool opened = true;
    memcpy(&cpu, call->cpu.bytes, sizeof cpu);
    if (FAULT(RIP_ONLY))
        ;
    else if (instruction->form == LOADIWKEY)
        loadiwkey(processor, &cpu, call->random, instruction);
    else if (is_use(instruction->form))
        opened = use_handle(iwkey, &cpu, call->memory.bytes, instruction);
    else
        encodekey(m, &processor->iwkey, &cpu, instruction);
    if (opened || !FAULT(RIP_STAYS_ON_FAILURE))
        store64(cpu.rip, next_rip(load64(cpu.rip), instruction));
    memcpy(call->cpu.bytes, &cpu, sizeof cpu);
}

/* write 0xD91 */
static void copy_out(struct machine *m, struct processor *processor)
{
    bool held_back = processor->iwkey.no_backup && !FAULT(COPY_OUT_NO_BACKUP);
    bool blocked = m->pending && !FAULT(COPY_OUT_PENDING) && !(FAULT(COPY_OUT_TAKEN) && m->consumed);
    processor->copy_status = (!held_back && !blocked) || FAULT(STATUS_ON_FAILURE);
    if (FAULT(FAILED_COPY_CLEARS_CONSUMED) && blocked)
        m->consumed = 0;
    if (held_back || blocked)
        return;
    if (!(FAULT(COPY_ONCE) && m->backup.present))
        m->backup = (struct platform_key){1, processor->iwkey};
    m->pending = 1;
    m->valid = FAULT(COPY_OUT_KEEPS_VALID) ? m->valid : 0;
    m->error = 0;
    m->consumed = FAULT(COPY_OUT_KEEPS_CONSUMED) ? m->consumed : 0;
}

/* write 0xD92 */
static void copy_in(const struct machine *m, struct processor *processor)
{
    static const struct iwkey none;
    bool works = m->backup.present && !(FAULT(COPY_IN_PENDING) && m->pending);
    bool moves = works && !(FAULT(COPY_IN_ONCE) && memcmp(&processor->iwkey, &none, sizeof none) != 0);
    processor->copy_status = works || FAULT(STATUS_ON_FAILURE);
    if (moves)
        processor->iwkey = m->backup.iwkey;
}

static void write_register(struct machine *m, const struct call *call)
{
    struct processor *processor = &m->processors[call->processor];
    if (FAULT(WRITE_0_CLEARS) && call->value == 0)
        processor->copy_status = 0;
    if (call->value == 0)
        return;
    if (call->address == COPY_OUT)
        copy_out(m, processor);
    else
        copy_in(m, processor);
}

static uint64_t read_register(const struct machine *m, const struct call *call)
{
    if (call->address == COPY_STATUS)
        return m->processors[call->processor].copy_status;
    unsigned consumed = m->consumed && !(FAULT(TAKEN_UNREAD) && m->pending);
    return (uint64_t)(m->valid | m->error << (FAULT(ERROR_BIT_1) ? 1 : 2) | consumed << 3);
}

static const struct platform_key absent;

/* consumed is not asked: a taken before changes nothing here */
static bool settles(const struct machine *m)
{
    if ((FAULT(SETTLE_NOT_TAKEN) && m->consumed) || (FAULT(SETTLE_NEEDS_TAKEN) && !m->consumed))
        return false;
    return m->pending || FAULT(SETTLE_NOT_PENDING);
}

static void settle(struct machine *m, uint8_t code)
{
    if (!settles(m))
        return;
    if (code == 0)
        m->store = m->backup;
    else if (!FAULT(BAD_SETTLE_KEEPS))
        m->store = absent;
    m->valid = code == 0;
    m->error = code == 1;
    m->consumed = FAULT(SETTLE_CLEARS_TAKEN) ? !m->consumed : 1;
    m->pending = 0;
}

static bool takes(const struct machine *m)
{
    if (FAULT(TAKEN_NOTHING) || (FAULT(TAKEN_NEEDS_BACKUP) && !m->backup.present) || (FAULT(TAKEN_NEEDS_FEATURE) && !(m->features & F_BACKUP)))
        return false;
    return m->pending || FAULT(TAKEN_NOT_PENDING);
}

/* nothing without a fault: all of this taken leaves alone */
static void take_more(struct machine *m)
{
    m->pending = FAULT(TAKEN_CLEARS_PENDING) ? 0 : m->pending;
    m->valid = FAULT(TAKEN_CLEARS_VALID) ? 0 : m->valid;
    m->error = FAULT(TAKEN_CLEARS_ERROR) ? 0 : m->error;
    if (FAULT(TAKEN_STORES))
        m->store = m->backup;
    for (int i = 0; i < m->count && FAULT(TAKEN_CLEARS_STATUS); i++)
        m->processors[i].copy_status = 0;
}

/* Consumed, and nothing else: the storage is still at work. */
static void taken(struct machine *m)
{
    if (!takes(m))
        return;
    if (FAULT(TAKEN_VALID))
        m->valid = 1;
    else
        m->consumed = FAULT(TAKEN_TOGGLES) ? !m->consumed : 1;
    take_more(m);
}

/* what the storage holds at the wake: 0 old, 1 new, 2 junk */
static struct platform_key woken_store(const struct machine *m, uint8_t code)
{
    if (code == 2 && (m->pending || !FAULT(JUNK_ONLY_PENDING)))
        return absent;
    bool newer = FAULT(WAKE_NEW_IS_OLD) ? false : code == 1 || (FAULT(WAKE_OLD_IS_NEW) && code == 0);
    return m->pending && newer ? m->backup : m->store;
}

static void sleep_and_wake(struct machine *m, uint8_t code)
{
    bool kept = FAULT(WAKE_KEEPS_BACKUP) && !m->pending && code < 2;
    m->store = woken_store(m, code);
    if (!kept)
        m->backup = m->store;
    m->error = code == 2;
    m->valid = m->store.present || (FAULT(JUNK_KEEPS_VALID) && code == 2 && m->valid);
    m->consumed = FAULT(SLEEP_KEEPS_CONSUMED) || (FAULT(SLEEP_KEEPS_TAKEN) && m->pending) ? m->consumed : 0;
    m->pending = 0;
    for (int i = 0; i < m->count; i++) {
        memset(&m->processors[i].iwkey, 0, sizeof m->processors[i].iwkey);
        if (!FAULT(SLEEP_KEEPS_STATUS))
            m->processors[i].copy_status = 0;
    }
}

static void reset(struct machine *m)
{
    struct machine old = *m;
    power_on(m, old.count, old.features);
    m->consumed = FAULT(RESET_KEEPS_CONSUMED) ? old.consumed : 0;
    if (FAULT(RESET_KEEPS_STORE)) {
        m->backup = old.backup;
        m->store = old.store;
    }
}

/* The CPU record keeps its registers and RIP: the four numbers are lent apart. */
static void identify(const struct machine *m, const struct call *call, uint32_t *const results[LEAF_REGISTERS])
{
    struct cpu *cpu = (struct cpu *)call->cpu.bytes;
    uint32_t answer[LEAF_REGISTERS];
    cpuid(m->features, cpu->control, call->leaf, call->subleaf, answer);
    for (int i = 0; i < LEAF_REGISTERS; i++)
        if (!FAULT(CPUID_ZEROS_KEPT) || answer[EAX] || answer[ECX])
            *results[i] = answer[i];
    if (FAULT(CPUID_IN_RECORD))
        store64(cpu->registers[RAX], answer[EAX]);
    if (FAULT(CPUID_RIP))
        store64(cpu->rip, load64(cpu->rip) + 2);
}

/* The size of the handle lent picks the key's; a fault lets the AAD's type shorten it. */
static enum form opening_form(const struct call *call)
{
    bool longer_by_aad = call->handle.bytes[3] & 15;
    return FAULT(CTR_TYPE_PICKS_SIZE) && !longer_by_aad ? AESENC128KL : ctr_form(call);
}

/* as AESENC128KL and AESENC256KL open a handle */
static bool ctr_opens(const struct iwkey *iwkey, const struct cpu *cpu, const struct call *call, uint8_t key[32])
{
    const uint8_t *handle = call->handle.bytes;
    enum form form = opening_form(call), judged = FAULT(CTR_JUDGED_DECRYPTING) ? form + 1 : form;
    if (FAULT(CTR_EMPTY_UNOPENED) && call->data.length == 0)
        return true;
    return legal(handle, judged, FAULT(CTR_ANY_CPL) ? 0 : cpu->cpl) && unwrap(iwkey, handle, key_length(form), key);
}

/* nothing without a fault: of the CPU record the flags alone change, and of the machine nothing */
static void write_more(struct machine *m, const struct call *call, struct cpu *cpu)
{
    if (FAULT(CTR_MOVES_RIP))
        store64(cpu->rip, load64(cpu->rip) + 5);
    if (FAULT(CTR_XMM0))
        memcpy(cpu->xmm[0], call->counter.bytes, 16);
    if (FAULT(CTR_CLEARS_STATUS))
        m->processors[call->processor].copy_status = 0;
}

static void ctr(struct machine *m, const struct call *call)
{
    const struct iwkey *iwkey = &m->processors[FAULT(CTR_PROCESSOR_0) ? 0 : call->processor].iwkey;
    struct cpu cpu;
    uint8_t key[32] = {0};
    memcpy(&cpu, call->cpu.bytes, sizeof cpu);
    uint64_t before = load64(cpu.rflags);
    bool opened = ctr_opens(iwkey, &cpu, call, key);
    set_flags(&cpu, !opened && !FAULT(CTR_ALWAYS_ZF_0));
    if (FAULT(CTR_FLAGS_KEPT))
        store64(cpu.rflags, (before & ~(uint64_t)ZF) | (opened ? 0 : ZF));
    if (FAULT(CTR_NO_FLAGS_WHEN_EMPTY) && call->data.length == 0)
        store64(cpu.rflags, before);
    if (opened)
        ctr_xor(key, key_length(opening_form(call)), call->counter.bytes, call->data);
    else if (FAULT(CTR_ZEROES) && call->data.length)
        memset(call->data.bytes, 0, call->data.length);
    write_more(m, call, &cpu);
    memcpy(call->cpu.bytes, &cpu, sizeof cpu);
}

static void perform(struct machine *m, struct call *call, const struct instruction *instruction, const struct results *results)
{
    switch (call->kind) {
    case POWER_ON:
        power_on(m, call->count, call->features);
        break;
    case STEP:
        if (instruction->form == IDLE)
            idle(m, call);
        else
            step(m, call, instruction);
        break;
    case READ:
        *results->value = read_register(m, call);
        break;
    case WRITE:
        write_register(m, call);
        break;
    case SETTLE:
        settle(m, call->code);
        break;
    case SLEEP:
        sleep_and_wake(m, call->code);
        break;
    case TAKEN:
        taken(m);
        break;
    case CPUID:
        identify(m, call, results->leaf);
        break;
    case CTR:
        ctr(m, call);
        break;
    default:
        reset(m);
    }
}

/* refusal 1, by the same test for every call but power-on; a fault may leave it out for taken */
static bool lent_refused(struct buffer machine, const struct call *call)
{
    struct machine m;
    if (call->kind == POWER_ON)
        return power_on_refused(machine.length, call->count, call->features);
    if (call->kind != TAKEN || machine.length != sizeof m || !(FAULT(TAKEN_UNCHECKED) || FAULT(TAKEN_CONSUMED_2)))
        return machine_refused(machine);
    memcpy(&m, machine.bytes, sizeof m);
    m.consumed = 0;
    return !FAULT(TAKEN_UNCHECKED) && machine_refused((struct buffer){(uint8_t *)&m, sizeof m});
}

uint32_t model_call(struct buffer machine, struct call *call, const struct results *results)
{
    struct machine m;
    struct instruction instruction = {0};
    if (FAULT(CPUID_CPU_BEFORE_MACHINE) && call->kind == CPUID && call->cpu.length != sizeof(struct cpu))
        return R4_CPU_LENGTH;
    if (lent_refused(machine, call))
        return FAULT(IDLE_ANY_MACHINE) && is_idle(call) ? DONE : R1_MACHINE;
    memcpy(&m, machine.bytes, sizeof m);
    if (FAULT(TAKEN_IDLE_REFUSED) && call->kind == TAKEN && !m.pending)
        return R2_CODE;
    uint32_t refusal = call->kind == POWER_ON ? DONE : call_refusal(m.count, m.features, call, &instruction);
    if (refusal)
        return refusal;
    perform(&m, call, &instruction, results);
    memcpy(machine.bytes, &m, sizeof m);
    return DONE;
}
