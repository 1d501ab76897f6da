#include "instructions.h"

#include <string.h>

#include "answer.h"
#include "execute.h"
#include "print.h"
#include "reason.h"
#include "record.h"
#include "value.h"

/* Strings have fixed operands: LOADIWKEY XMM2, XMM1; ENCODEKEY EAX, ECX; a use has XMM0 (wide: XMM0 to XMM7) and the handle at a 32-bit address
 * without a register, so that no general register is needed (ModRM with r/m 4, then SIB 25). */
enum { MODRM_LOAD = 0xD1, MODRM_ENCODE = 0xC1, MODRM_SIB = 0x04, SIB_ABSOLUTE = 0x25 };

const struct mnemonic *mnemonic_named(struct word word)
{
    for (size_t i = 0; i < MNEMONICS; i++)
        if (word_is(word, mnemonics[i].name))
            return &mnemonics[i];
    return NULL;
}

static bool execute_registers(struct simulator *s, const struct mnemonic *m, const struct bytes *random)
{
    const uint8_t string[] = {0xF3, 0x0F, 0x38, m->opcode, m->call == CALL_LOAD ? MODRM_LOAD : MODRM_ENCODE};
    return execute(s, string, sizeof string, random);
}

/* ---- LOADIWKEY */

/* Whether key source 1 is meant; its random data goes to s->right, none where the source is not ready. */
static bool take_random(struct simulator *s)
{
    s->right.len = 0;
    if (!accept(&s->line, "random"))
        return false;
    if (!accept(&s->line, "not-ready"))
        take_bytes_of(s, "not-ready or random data", KEYLOCKER_RANDOM_SIZE, &s->right);
    return true;
}

static void run_load(struct simulator *s, const struct mnemonic *m)
{
    take_bytes_of(s, "an IWKey (integrity key, then encryption key)", KEYLOCKER_IWKEY_SOURCE, &s->left);
    bool no_backup = accept(&s->line, "no-backup");
    bool random = take_random(s);
    no_backup |= accept(&s->line, "no-backup"); // in either order
    take_end(&s->line);
    print_statement(s);
    struct cpu *cpu = this_cpu(s);
    memcpy(xmm_of(cpu, 0), s->left.data, 3 * 16); // integrity key; SRC2, the low half; SRC1, the high half
    keylocker_set_register(cpu->record, KEYLOCKER_RAX, (no_backup ? KEYLOCKER_LOADIWKEY_NO_BACKUP : 0) | (random ? KEYLOCKER_LOADIWKEY_RANDOM : 0));
    if (!execute_registers(s, m, &s->right))
        return;
    if (s->last.zf)
        print_answer(s, "0 done, ZF 1: the random source was not ready, the IWKey is kept");
    else
        print_answer(s, "0 done, ZF 0: the IWKey is loaded (key source %d, NoBackup %d)", random, no_backup);
}

/* ---- ENCODEKEY */

/* One, or 0 where the next word is none. */
static uint32_t take_restriction(struct simulator *s)
{
    for (size_t i = 0; i < RESTRICTIONS; i++)
        if (accept(&s->line, restrictions[i].name))
            return restrictions[i].bit;
    return 0;
}

static uint32_t take_restrictions(struct simulator *s)
{
    uint32_t bits = 0, one;
    for (;;)
        if ((one = take_restriction(s)) != 0)
            bits |= one;
        else if (accept(&s->line, "restrict"))
            bits |= (uint32_t)take_number(&s->line, "restriction bits", UINT32_MAX);
        else
            return bits;
}

static void run_encode(struct simulator *s, const struct mnemonic *m)
{
    take_bytes_of(s, "a key", m->key_size, &s->left);
    uint32_t restrictions = take_restrictions(s);
    size_t len = m->key_size == 32 ? KEYLOCKER_HANDLE_256_SIZE : KEYLOCKER_HANDLE_128_SIZE;
    struct name *result = take_result(s, len);
    take_end(&s->line);
    print_statement(s);
    struct cpu *cpu = this_cpu(s);
    memcpy(xmm_of(cpu, 0), s->left.data, m->key_size);
    keylocker_set_register(cpu->record, KEYLOCKER_RCX, restrictions);
    if (!execute_registers(s, m, NULL)) {
        take_value_away(s, result);
        return;
    }
    unsigned eax = (unsigned)keylocker_get_register(cpu->record, KEYLOCKER_RAX);
    print_answer(s, "0 done: the IWKey that it is encoded under has key source %u, NoBackup %u", eax >> 1, eax & 1);
    print_result(s, "handle", result, xmm_of(cpu, 0), len);
    give_value(s, result, xmm_of(cpu, 0), len);
}

/* ---- the uses */

/* Where the handle is. A handle given as bytes is put into guest memory, as a program has it there. */
static uint32_t take_handle(struct simulator *s)
{
    if (accept(&s->line, "at"))
        return (uint32_t)take_number(&s->line, "the handle's address", INT32_MAX);
    s->right.len = 0;
    append_word_value(s, take_word(&s->line, "a handle, or at and an address"), &s->right);
    if (s->right.len > KEYLOCKER_HANDLE_256_SIZE)
        bad_line(&s->line, "expected a handle, at most %d bytes, and these are %zu", KEYLOCKER_HANDLE_256_SIZE, s->right.len);
    return HANDLE_PLACE;
}

static void put_handle(struct simulator *s)
{
    memset(s->memory + HANDLE_PLACE, 0, KEYLOCKER_HANDLE_256_SIZE);
    memcpy(s->memory + HANDLE_PLACE, s->right.data, s->right.len);
}

static void print_used(struct simulator *s, const struct mnemonic *m, const struct name *result, size_t len)
{
    if (s->last.zf) {
        add_answer(s, "0 done, ZF 1: ");
        add_use_reason(s);
        print_answer(s, "; the block%s unchanged", m->wide ? "s are" : " is");
        return;
    }
    print_answer(s, "0 done, ZF 0: the handle opens, %s %scrypted", m->wide ? "8 blocks are" : "1 block is", m->encrypts ? "en" : "de");
    print_result(s, "result", result, xmm_of(this_cpu(s), 0), len);
}

static bool execute_use(struct simulator *s, const struct mnemonic *m, uint32_t address)
{
    uint8_t modrm = (uint8_t)(m->wide ? m->reg << 3 | MODRM_SIB : MODRM_SIB);
    const uint8_t string[] = {
        0xF3, 0x0F, 0x38, m->opcode, modrm, SIB_ABSOLUTE, (uint8_t)address, (uint8_t)(address >> 8), (uint8_t)(address >> 16), (uint8_t)(address >> 24),
    };
    return execute(s, string, sizeof string, NULL);
}

static void run_use(struct simulator *s, const struct mnemonic *m)
{
    bool in_memory = next_is(&s->line, "at");
    uint32_t address = take_handle(s);
    size_t len = m->wide ? 8 * 16 : 16;
    take_bytes_of(s, m->wide ? "8 blocks" : "a block", len, &s->left);
    struct name *result = take_result(s, len);
    take_end(&s->line);
    print_statement(s);
    if (!in_memory)
        put_handle(s);
    memcpy(xmm_of(this_cpu(s), 0), s->left.data, len);
    bool done = execute_use(s, m, address);
    if (done)
        print_used(s, m, result, len);
    else if (s->last.answer == KEYLOCKER_PF && !in_memory)
        print_answer(s, "the handle was put at 0x%x, into the last %d bytes of guest memory, and only %zu bytes of that are lent", (unsigned)address,
                     KEYLOCKER_HANDLE_256_SIZE, s->memory_len);
    if (done && !s->last.zf)
        give_value(s, result, xmm_of(this_cpu(s), 0), len);
    else
        take_value_away(s, result);
}

void run_instruction(struct simulator *s, const struct mnemonic *m)
{
    if (m->call == CALL_LOAD)
        run_load(s, m);
    else if (m->call == CALL_ENCODE)
        run_encode(s, m);
    else
        run_use(s, m);
}
