#include "spoil.h"

#include <string.h>

#include "assemble.h"
#include "chance.h"
#include "refusals.h"

static uint8_t above(unsigned most)
{
    return (uint8_t)(one_in(3) ? most + 1 : most + 1 + below(255 - most));
}

/* ---- 1: the machine; a record that was written otherwise is a copy ---- */

static bool lent_record(struct trial *t)
{
    if (t->call.kind == POWER_ON)
        return false;
    t->carried = false;
    return true;
}

static bool any_length_but(size_t *length, size_t right, size_t most)
{
    size_t near[] = {0, 1, right - 1, right + 1, 2 * right, below(most)};
    do
        *length = near[below(sizeof near / sizeof *near)], near[5] = below(most);
    while (*length == right);
    return true;
}

static bool machine_length(struct trial *t)
{
    t->carried = false;
    any_bytes(t->machine_room + sizeof(struct machine), BUFFER_ROOM - sizeof(struct machine));
    return any_length_but(&t->machine.length, sizeof(struct machine), BUFFER_ROOM);
}

static bool count_0(struct trial *t)
{
    if (t->call.kind == POWER_ON)
        t->call.count = 0;
    else
        t->carried = false, trial_machine(t)->count = 0;
    return true;
}

static bool count_above_16(struct trial *t)
{
    if (t->call.kind == POWER_ON)
        t->call.count = above(PROCESSORS);
    else
        t->carried = false, trial_machine(t)->count = above(PROCESSORS);
    return true;
}

static bool feature_bits(struct trial *t, uint8_t bits)
{
    if (t->call.kind == POWER_ON)
        t->call.features |= bits;
    else
        t->carried = false, trial_machine(t)->features |= bits;
    return true;
}

static bool feature_bit_6(struct trial *t)
{
    return feature_bits(t, 0x40);
}

static bool feature_bit_7(struct trial *t)
{
    return feature_bits(t, 0x80);
}

static struct processor *some_entry(struct trial *t)
{
    return &trial_machine(t)->processors[below(trial_machine(t)->count)];
}

static bool processor_source(struct trial *t)
{
    return lent_record(t) && (some_entry(t)->iwkey.source = above(1));
}

static bool processor_no_backup(struct trial *t)
{
    return lent_record(t) && (some_entry(t)->iwkey.no_backup = above(1));
}

static bool processor_status(struct trial *t)
{
    return lent_record(t) && (some_entry(t)->copy_status = above(1));
}

static bool past_count(struct trial *t)
{
    struct machine *m = trial_machine(t);
    if (t->call.kind == POWER_ON || m->count == PROCESSORS)
        return false;
    struct processor *entry = &m->processors[m->count + below(PROCESSORS - m->count)];
    ((uint8_t *)entry)[one_in(2) ? below(sizeof *entry) : sizeof *entry - 1] = one_in(2) ? 1 : above(0);
    return lent_record(t);
}

static bool absent_iwkey(struct trial *t, struct platform_key *key)
{
    if (!lent_record(t))
        return false;
    memset(key, 0, sizeof *key);
    ((uint8_t *)&key->iwkey)[below(sizeof key->iwkey)] = above(0);
    return true;
}

static bool present_iwkey(struct trial *t, struct platform_key *key)
{
    if (!lent_record(t))
        return false;
    key->present = 1;
    *(one_in(2) ? &key->iwkey.source : &key->iwkey.no_backup) = above(1);
    return true;
}

static bool absent_backup(struct trial *t)
{
    return absent_iwkey(t, &trial_machine(t)->backup);
}

static bool absent_store(struct trial *t)
{
    return absent_iwkey(t, &trial_machine(t)->store);
}

static bool backup_iwkey(struct trial *t)
{
    return present_iwkey(t, &trial_machine(t)->backup);
}

static bool store_iwkey(struct trial *t)
{
    return present_iwkey(t, &trial_machine(t)->store);
}

static bool backup_presence(struct trial *t)
{
    return lent_record(t) && (trial_machine(t)->backup.present = above(1));
}

static bool store_presence(struct trial *t)
{
    return lent_record(t) && (trial_machine(t)->store.present = above(1));
}

static bool pending_flag(struct trial *t)
{
    return lent_record(t) && (trial_machine(t)->pending = above(1));
}

static bool valid_flag(struct trial *t)
{
    return lent_record(t) && (trial_machine(t)->valid = above(1));
}

static bool error_flag(struct trial *t)
{
    return lent_record(t) && (trial_machine(t)->error = above(1));
}

static bool consumed_flag(struct trial *t)
{
    return lent_record(t) && (trial_machine(t)->consumed = above(1));
}

/* ---- 2 to 7 and 18: numbers and lengths ---- */

static bool settle_code(struct trial *t)
{
    return t->call.kind == SETTLE && (t->call.code = above(1));
}

static bool wake_code(struct trial *t)
{
    return t->call.kind == SLEEP && (t->call.code = above(2));
}

static bool is_step(const struct trial *t)
{
    return t->call.kind == STEP;
}

static bool is_ctr(const struct trial *t)
{
    return t->call.kind == CTR;
}

static bool has_cpu(const struct trial *t)
{
    return is_step(t) || is_ctr(t) || t->call.kind == CPUID;
}

static bool is_register_call(const struct trial *t)
{
    return t->call.kind == READ || t->call.kind == WRITE;
}

static bool processor_number(struct trial *t)
{
    return (is_step(t) || is_ctr(t) || is_register_call(t)) && (t->call.processor = above(trial_machine(t)->count - 1u));
}

static bool cpu_length(struct trial *t)
{
    any_bytes(t->cpu_room + sizeof(struct cpu), BUFFER_ROOM - sizeof(struct cpu));
    return has_cpu(t) && any_length_but(&t->call.cpu.length, sizeof(struct cpu), BUFFER_ROOM);
}

static bool cpu_cpl(struct trial *t)
{
    return has_cpu(t) && (trial_cpu(t)->cpl = above(3));
}

static bool register_cpl_above_3(struct trial *t)
{
    return is_register_call(t) && (t->call.cpl = above(3));
}

static bool control_bit(struct trial *t)
{
    return has_cpu(t) && (trial_cpu(t)->control |= (uint8_t)(0x10 << below(4)));
}

static bool zero_byte(struct trial *t)
{
    return has_cpu(t) && (trial_cpu(t)->zeros[below(6)] = above(0));
}

static bool data_length(struct trial *t)
{
    if (is_ctr(t))
        t->call.data.length = one_in(2) ? BUFFER_LIMIT + 1 : BUFFER_LIMIT + 1 + below(DATA_ROOM - BUFFER_LIMIT);
    return is_ctr(t);
}

static bool handle_size(struct trial *t)
{
    static const size_t near[] = {0, 1, 16, 32, 47, 49, 56, 63, 65, 80, 128};
    if (is_ctr(t))
        t->call.handle.length = near[below(sizeof near / sizeof *near)];
    return is_ctr(t);
}

static bool counter_size(struct trial *t)
{
    return is_ctr(t) && any_length_but(&t->call.counter.length, COUNTER_SIZE, COUNTER_ROOM);
}

static bool memory_length(struct trial *t)
{
    if (is_step(t))
        t->call.memory.length = one_in(2) ? MEMORY_LIMIT + 1 : MEMORY_LIMIT + 1 + below(MEMORY_ROOM - MEMORY_LIMIT);
    return is_step(t);
}

static bool random_length(struct trial *t)
{
    if (!is_step(t))
        return false;
    do
        any_length_but(&t->call.random.length, RANDOM_SIZE, 200);
    while (t->call.random.length == 0);
    any_bytes(t->random_room, t->call.random.length);
    return true;
}

/* ---- 8 and 9: the string ---- */

static bool has_lock(const struct trial *t)
{
    return t->string_room[0] == 0xF0;
}

static bool has_address_size(const struct trial *t)
{
    return t->string_room[has_lock(t)] == 0x67;
}

static size_t f3_at(const struct trial *t)
{
    return (size_t)has_lock(t) + has_address_size(t);
}

static bool has_rex(const struct trial *t)
{
    return t->string_room[f3_at(t) + 1] >> 4 == 4;
}

/* where 0F stands; 38, opcode and ModRM follow */
static size_t map_at(const struct trial *t)
{
    return f3_at(t) + 1 + has_rex(t);
}

/* in a string that was cut before, at its end at most */
static bool insert(struct trial *t, size_t at, uint8_t byte)
{
    if (at > t->call.string.length)
        at = t->call.string.length;
    memmove(t->string_room + at + 1, t->string_room + at, t->call.string.length++ - at);
    t->string_room[at] = byte;
    return true;
}

static bool is_opcode(uint8_t byte)
{
    return strchr("\xD8\xDC\xDD\xDE\xDF\xFA\xFB", byte) && byte;
}

static bool byte_for_f3(struct trial *t)
{
    if (!is_step(t))
        return false;
    uint8_t *byte = &t->string_room[f3_at(t)];
    do
        *byte = (uint8_t)any64();
    while (*byte == 0xF3 || *byte == 0xF0 || *byte == 0x67);
    return true;
}

/* before or behind a 67 */
static bool prefix_before(struct trial *t)
{
    static const uint8_t prefixes[] = {0x66, 0xF2, 0xF3, 0x2E, 0x36, 0x3E, 0x26, 0x64, 0x65, 0x40, 0x48};
    return is_step(t) && insert(t, one_in(2) ? has_lock(t) : f3_at(t), prefixes[below(sizeof prefixes)]);
}

static bool two_locks(struct trial *t)
{
    return is_step(t) && insert(t, 0, 0xF0) && insert(t, 0, 0xF0);
}

/* a 67 where instructions have it, if there is none yet */
static bool ensure_address_size(struct trial *t)
{
    return has_address_size(t) || insert(t, f3_at(t), 0x67);
}

static bool address_size_before_lock(struct trial *t)
{
    return is_step(t) && ensure_address_size(t) && insert(t, f3_at(t), 0xF0);
}

static bool two_address_sizes(struct trial *t)
{
    return is_step(t) && ensure_address_size(t) && insert(t, f3_at(t), 0x67);
}

static bool address_size_behind_f3(struct trial *t)
{
    return is_step(t) && insert(t, f3_at(t) + 1, 0x67);
}

static bool address_size_behind_rex(struct trial *t)
{
    return is_step(t) && has_rex(t) && insert(t, f3_at(t) + 2, 0x67);
}

static bool prefix_after(struct trial *t)
{
    static const uint8_t prefixes[] = {0x66, 0xF0, 0xF2, 0xF3, 0x2E, 0x64};
    return is_step(t) && insert(t, f3_at(t) + 1, prefixes[below(sizeof prefixes)]);
}

static bool two_rex(struct trial *t)
{
    return is_step(t) && has_rex(t) && insert(t, f3_at(t) + 1, (uint8_t)(0x40 + below(16)));
}

static bool byte_for_0f(struct trial *t)
{
    if (!is_step(t))
        return false;
    uint8_t *byte = &t->string_room[map_at(t)];
    do
        *byte = (uint8_t)any64();
    while (*byte == 0x0F || *byte >> 4 == 4);
    return true;
}

static bool byte_for_38(struct trial *t)
{
    if (!is_step(t))
        return false;
    t->string_room[map_at(t) + 1] ^= above(0);
    return true;
}

static bool unknown_opcode(struct trial *t)
{
    if (!is_step(t))
        return false;
    uint8_t *byte = &t->string_room[map_at(t) + 2];
    do
        *byte = one_in(2) ? (uint8_t)(0xD7 + below(40)) : (uint8_t)any64();
    while (is_opcode(*byte));
    return true;
}

static bool use_of_register(struct trial *t)
{
    if (!is_step(t) || !is_use(t->form) || t->form == AESENC128KL)
        return false;
    t->string_room[map_at(t) + 3] |= 0xC0;
    return true;
}

static bool wide_reg_4(struct trial *t)
{
    if (!is_step(t) || !is_wide(t->form))
        return false;
    t->string_room[map_at(t) + 3] |= 0x20;
    return true;
}

static bool encode_of_memory(struct trial *t)
{
    if (!is_step(t) || is_use(t->form) || t->form == LOADIWKEY)
        return false;
    t->string_room[map_at(t) + 3] -= (uint8_t)(0x40 * (1 + below(3)));
    return true;
}

/* not to nothing, which is an idle step */
static bool string_cut(struct trial *t)
{
    if (!is_step(t))
        return false;
    t->call.string.length = 1 + below(t->operand.length - 1);
    return true;
}

static bool ends_behind_lock(struct trial *t)
{
    if (!is_step(t))
        return false;
    if (!has_lock(t))
        put_lock(t);
    t->call.string.length = 1;
    return true;
}

/* 67 alone, or F0 67 */
static bool ends_behind_address_size(struct trial *t)
{
    if (!is_step(t))
        return false;
    ensure_address_size(t);
    t->call.string.length = f3_at(t);
    return true;
}

/* ---- 10 and 11: #UD and #NM ---- */

static bool lock(struct trial *t)
{
    if (is_step(t))
        put_lock(t);
    return is_step(t);
}

static bool feature_off(struct trial *t, bool applies, uint8_t feature)
{
    if (!applies)
        return false;
    t->carried = false;
    trial_machine(t)->features &= (uint8_t)~feature;
    return true;
}

static bool kl_off(struct trial *t)
{
    return feature_off(t, is_step(t) || is_ctr(t), F_KL);
}

static bool firmware_off(struct trial *t)
{
    return feature_off(t, is_ctr(t) || (is_step(t) && t->form != LOADIWKEY), F_FIRMWARE);
}

static bool wide_off(struct trial *t)
{
    return feature_off(t, is_step(t) && is_wide(t->form), F_WIDE);
}

/* of a call that control bits count for */
static bool control(struct trial *t, uint8_t off, uint8_t on)
{
    bool applies = is_step(t) || is_ctr(t);
    if (applies)
        trial_cpu(t)->control = (uint8_t)((trial_cpu(t)->control & ~off) | on);
    return applies;
}

static bool cr4_kl_off(struct trial *t)
{
    return control(t, C_CR4_KL, 0);
}

static bool osfxsr_off(struct trial *t)
{
    return control(t, C_OSFXSR, 0);
}

static bool em_on(struct trial *t)
{
    return control(t, 0, C_EM);
}

static bool ts_on(struct trial *t)
{
    return control(t, 0, C_TS);
}

/* ---- 12 to 14 of instructions ---- */

static bool is_load(const struct trial *t)
{
    return is_step(t) && t->form == LOADIWKEY;
}

static bool encode_source(struct trial *t)
{
    if (!is_step(t) || t->form < ENCODEKEY128)
        return false;
    size_t modrm = map_at(t) + 3;
    unsigned source = (t->string_room[modrm] & 7) | (has_rex(t) && t->string_room[f3_at(t) + 1] & 1 ? 8 : 0);
    uint8_t *low = trial_cpu(t)->registers[source];
    store32(low, load32(low) | UINT32_C(1) << (3 + below(29)));
    return true;
}

static bool load_cpl(struct trial *t)
{
    return is_load(t) && (trial_cpu(t)->cpl = (uint8_t)(1 + below(3)));
}

static bool load_source(struct trial *t)
{
    uint8_t *eax = trial_cpu(t)->registers[RAX];
    if (!is_load(t))
        return false;
    store32(eax, (load32(eax) & ~UINT32_C(0x1E)) | (uint32_t)(2 + below(14)) << 1);
    return true;
}

static bool load_bits(struct trial *t)
{
    uint8_t *eax = trial_cpu(t)->registers[RAX];
    if (!is_load(t))
        return false;
    store32(eax, load32(eax) | UINT32_C(1) << (5 + below(27)));
    return true;
}

static bool load_no_backup_off(struct trial *t)
{
    if (is_load(t))
        trial_cpu(t)->registers[RAX][0] |= 1;
    return feature_off(t, is_load(t), F_NO_BACKUP);
}

static bool load_random_off(struct trial *t)
{
    uint8_t *al = trial_cpu(t)->registers[RAX];
    if (is_load(t))
        *al = (uint8_t)((*al & ~0x1E) | 2);
    return feature_off(t, is_load(t), F_RANDOM);
}

/* a start from which some byte of the handle is not canonical; the first one over the edge often */
static uint64_t uncanonical_start(size_t read)
{
    switch (below(4)) {
    case 0:
        return UINT64_C(0x800000000000) - read + 1;
    case 1:
        return UINT64_C(0x800000000000) - read + 1 + below(2 * read);
    case 2:
        return UINT64_C(0xFFFF800000000000) - 1 - below(2 * read);
    default:
        return (1 + below(0x1FFFE)) << 47 | any64() >> 17;
    }
}

/* as below, for an address of 32 bits: often the last place from which a handle does not run over 2^32, and places behind it */
static uint64_t outside_start_32(size_t read, size_t memory)
{
    switch (below(4)) {
    case 0:
        return UINT64_C(0x100000000) - read;
    case 1:
        return UINT64_C(0x100000000) - 1 - below(2 * read);
    default:
        return (uint32_t)(memory - read + 1 + below(read + 20));
    }
}

/* a canonical start from which some byte is outside memory; the last one below the edge, and the top of the number range, often */
static uint64_t outside_start(size_t read, size_t memory)
{
    switch (below(5)) {
    case 0:
        return UINT64_C(0x800000000000) - read;
    case 1:
        return UINT64_C(0xFFFF800000000000) + below(100);
    case 2:
        return 0 - (uint64_t)(1 + below(2 * read));
    default:
        return memory - read + 1 + below(read + 20);
    }
}

/* without 67, behind which every address is canonical */
static bool aim_uncanonical(struct trial *t)
{
    bool sized = t->operand.address_32;
    if (sized)
        drop_address_size(t);
    for (int tries = 0; tries < 20; tries++)
        if (aim(t, uncanonical_start(handle_length(t->form))))
            return true;
    if (sized)
        put_address_size(t);
    return false;
}

static bool aim_outside(struct trial *t)
{
    size_t read = handle_length(t->form), memory = t->call.memory.length;
    for (int tries = 0; tries < 20; tries++)
        if (aim(t, t->operand.address_32 ? outside_start_32(read, memory) : outside_start(read, memory)))
            return true;
    return false;
}

static bool is_stack_operand(const struct trial *t)
{
    return t->operand.base == RSP || t->operand.base == RBP;
}

static bool uncanonical(struct trial *t)
{
    return is_step(t) && is_use(t->form) && !is_stack_operand(t) && aim_uncanonical(t);
}

static bool uncanonical_stack(struct trial *t)
{
    return is_step(t) && is_use(t->form) && is_stack_operand(t) && aim_uncanonical(t);
}

static bool outside_memory(struct trial *t)
{
    return is_step(t) && is_use(t->form) && aim_outside(t);
}

/* The handle's own place and one bit more, often the highest that can be set: an address of too few bits finds the handle. Memory ends below bit 20. */
static bool one_bit_more(struct trial *t)
{
    if (!is_step(t) || !is_use(t->form))
        return false;
    unsigned bits = t->operand.address_32 ? 32 : 47;
    uint64_t place = t->target % MEMORY_LIMIT;
    for (int tries = 0; tries < 20; tries++)
        if (aim(t, place + (UINT64_C(1) << (one_in(2) ? bits - 1 : 20 + below(bits - 20)))))
            return true;
    return false;
}

static bool memory_ends(struct trial *t)
{
    if (!is_step(t) || !is_use(t->form))
        return false;
    t->call.memory.length = one_in(10) ? 0 : t->target + handle_length(t->form) - 1 - (one_in(2) ? 0 : below(handle_length(t->form)));
    return true;
}

/* ---- 12 of the backup registers ---- */

static bool register_cpl(struct trial *t)
{
    return is_register_call(t) && (t->call.cpl = (uint8_t)(1 + below(3)));
}

static bool register_kl_off(struct trial *t)
{
    return feature_off(t, is_register_call(t), F_KL);
}

static bool register_backup_off(struct trial *t)
{
    return feature_off(t, is_register_call(t), F_BACKUP);
}

static bool is_register(uint32_t address)
{
    return address == COPY_STATUS || address == BACKUP_STATUS || address == COPY_OUT || address == COPY_IN;
}

static bool unknown_address(struct trial *t)
{
    static const uint32_t near[] = {0, 0x98F, 0x992, 0xD90, 0xD93, 0x10990, 0x80000D91, 0xFFFFFFFF};
    if (!is_register_call(t))
        return false;
    do
        t->call.address = one_in(2) ? near[below(sizeof near / sizeof *near)] : one_in(2) ? t->call.address ^ 1u << below(32) : (uint32_t)any64();
    while (is_register(t->call.address));
    return true;
}

static bool wrong_direction(struct trial *t)
{
    static const uint32_t readable[] = {COPY_STATUS, BACKUP_STATUS}, writable[] = {COPY_OUT, COPY_IN};
    if (is_register_call(t))
        t->call.address = t->call.kind == READ ? writable[below(2)] : readable[below(2)];
    return is_register_call(t);
}

static bool written_bits(struct trial *t)
{
    return t->call.kind == WRITE && (t->call.value |= UINT64_C(1) << (1 + below(63)));
}

/* in the order in which they are checked */
const struct spoil spoils[] = {
    {R1_MACHINE, "machine not 924 bytes", machine_length},
    {R1_MACHINE, "count 0", count_0},
    {R1_MACHINE, "count above 16", count_above_16},
    {R1_MACHINE, "feature bit 6", feature_bit_6},
    {R1_MACHINE, "feature bit 7", feature_bit_7},
    {R1_MACHINE, "a processor's key source above 1", processor_source},
    {R1_MACHINE, "a processor's NoBackup above 1", processor_no_backup},
    {R1_MACHINE, "a copy status above 1", processor_status},
    {R1_MACHINE, "an entry past the count not zero", past_count},
    {R1_MACHINE, "an absent backup not zero", absent_backup},
    {R1_MACHINE, "an absent store not zero", absent_store},
    {R1_MACHINE, "the backup's key source or NoBackup above 1", backup_iwkey},
    {R1_MACHINE, "the store's key source or NoBackup above 1", store_iwkey},
    {R1_MACHINE, "the backup's presence above 1", backup_presence},
    {R1_MACHINE, "the store's presence above 1", store_presence},
    {R1_MACHINE, "pending above 1", pending_flag},
    {R1_MACHINE, "valid above 1", valid_flag},
    {R1_MACHINE, "error above 1", error_flag},
    {R1_MACHINE, "consumed above 1", consumed_flag},
    {R2_CODE, "settle code", settle_code},
    {R2_CODE, "wake code", wake_code},
    {R3_PROCESSOR, "processor number", processor_number},
    {R4_CPU_LENGTH, "CPU record not 408 bytes", cpu_length},
    {R5_CPU, "CPL of the CPU record above 3", cpu_cpl},
    {R5_CPU, "CPL of a register call above 3", register_cpl_above_3},
    {R5_CPU, "a control bit above 3", control_bit},
    {R5_CPU, "a zero byte of the CPU record", zero_byte},
    {R18_SIZE, "buffer above 65,536 bytes", data_length},
    {R18_SIZE, "handle neither 48 nor 64 bytes", handle_size},
    {R18_SIZE, "counter block not 16 bytes", counter_size},
    {R6_MEMORY, "memory above 1,048,576 bytes", memory_length},
    {R7_RANDOM, "random data neither 0 nor 48 bytes", random_length},
    {R8_BYTE, "another byte for F3", byte_for_f3},
    {R8_BYTE, "another prefix before F3", prefix_before},
    {R8_BYTE, "F0 twice", two_locks},
    {R8_BYTE, "67 before F0", address_size_before_lock},
    {R8_BYTE, "67 twice", two_address_sizes},
    {R8_BYTE, "another prefix after F3", prefix_after},
    {R8_BYTE, "67 behind F3", address_size_behind_f3},
    {R8_BYTE, "two REX bytes", two_rex},
    {R8_BYTE, "67 behind REX", address_size_behind_rex},
    {R8_BYTE, "another byte for 0F", byte_for_0f},
    {R8_BYTE, "another byte for 38", byte_for_38},
    {R8_BYTE, "an unknown opcode", unknown_opcode},
    {R8_BYTE, "a use of a register", use_of_register},
    {R8_BYTE, "a wide form with reg 4 to 7", wide_reg_4},
    {R8_BYTE, "an encode of memory", encode_of_memory},
    {R9_STRING_ENDS, "the string ends", string_cut},
    {R9_STRING_ENDS, "the string ends behind F0", ends_behind_lock},
    {R9_STRING_ENDS, "the string ends behind 67", ends_behind_address_size},
    {R10_UD, "LOCK", lock},
    {R10_UD, "KL feature off", kl_off},
    {R10_UD, "CR4.KL off", cr4_kl_off},
    {R10_UD, "EM on", em_on},
    {R10_UD, "OSFXSR off", osfxsr_off},
    {R10_UD, "firmware bit off", firmware_off},
    {R10_UD, "wide bit off", wide_off},
    {R11_NM, "TS on", ts_on},
    {R12_GP, "encode source bits 31:3", encode_source},
    {R12_GP, "LOADIWKEY at CPL above 0", load_cpl},
    {R12_GP, "LOADIWKEY key source above 1", load_source},
    {R12_GP, "LOADIWKEY EAX bits 31:5", load_bits},
    {R12_GP, "LOADIWKEY NoBackup unsupported", load_no_backup_off},
    {R12_GP, "LOADIWKEY source 1 unsupported", load_random_off},
    {R12_GP, "a handle byte not canonical", uncanonical},
    {R12_GP, "backup register at CPL above 0", register_cpl},
    {R12_GP, "backup register without KL feature", register_kl_off},
    {R12_GP, "backup register without backup feature", register_backup_off},
    {R12_GP, "backup register address unknown", unknown_address},
    {R12_GP, "backup register in the wrong direction", wrong_direction},
    {R12_GP, "backup register bits 63:1 written", written_bits},
    {R13_SS, "a handle byte not canonical in the stack segment", uncanonical_stack},
    {R14_PF, "a handle outside memory", outside_memory},
    {R14_PF, "a handle's place and one address bit more", one_bit_more},
    {R14_PF, "memory ends inside a handle", memory_ends},
};
const int spoil_count = sizeof spoils / sizeof *spoils;

/* mostly a refusal first, and then one of its reasons, so that those with one reason are not rare */
static int some_spoil(void)
{
    uint32_t number = checking_order[below(REFUSALS)];
    int chosen;
    bool by_number = !one_in(3);
    do
        chosen = (int)below((uint64_t)spoil_count);
    while (by_number && spoils[chosen].number != number);
    return chosen;
}

/* An idle step has no instruction, which all numbers from 8 on are about. */
static void apply(struct trial *t, int chosen)
{
    if ((is_idle(&t->call) && spoils[chosen].number >= R8_BYTE) || !spoils[chosen].apply(t))
        return;
    t->spoils[1] = t->spoils[0];
    t->spoils[0] = chosen;
}

/* The later one first: what the earlier one needs is then the last that was written. */
static void apply_two(struct trial *t)
{
    static struct trial before;
    before = *t;
    for (int tries = 0; tries < 30 && t->spoils[1] < 0; tries++) {
        int first = some_spoil(), second = some_spoil();
        if (first == second)
            continue;
        *t = before;
        apply(t, second > first ? second : first);
        apply(t, second > first ? first : second);
    }
}

void spoil(struct trial *t)
{
    if (one_in(2))
        apply_two(t);
    for (int tries = 0; tries < 30 && t->spoils[0] < 0; tries++)
        apply(t, some_spoil());
    if (t->spoils[0] < 0)
        return;
    uint32_t low = spoils[t->spoils[0]].number, high = t->spoils[1] < 0 ? 0 : spoils[t->spoils[1]].number;
    if (t->meant != ANY_NUMBER)
        t->meant = low;
    if (low == R8_BYTE && high == R9_STRING_ENDS)
        t->meant = ANY_NUMBER; /* the cut may have taken the byte away */
}
