#include "execute.h"

#include <inttypes.h>
#include <string.h>

#include "answer.h"
#include "decode.h"
#include "print.h"

uint8_t cpl_of(struct simulator *s)
{
    return s->cpl >= 0 ? (uint8_t)s->cpl : this_cpu(s)->record[KEYLOCKER_CPU_CPL];
}

/* The record gets the CPL of the statement for one call; the one that it had. */
static uint8_t lend_cpl(struct simulator *s)
{
    uint8_t own_cpl = this_cpu(s)->record[KEYLOCKER_CPU_CPL];
    this_cpu(s)->record[KEYLOCKER_CPU_CPL] = cpl_of(s);
    return own_cpl;
}

/* Behind that call, which has written ZF where it was done. */
static bool cpu_answered(struct simulator *s, enum call call, uint32_t answer, uint8_t own_cpl)
{
    this_cpu(s)->record[KEYLOCKER_CPU_CPL] = own_cpl;
    bool done = answered(s, call, answer);
    s->last.zf = keylocker_get_zf(this_cpu(s)->record);
    return done;
}

static void keep_text(struct simulator *s, const struct instruction *instruction)
{
    char text[INSTRUCTION_TEXT];
    instruction_text(instruction, text);
    bytes_assign(&s->instruction, (const uint8_t *)text, strlen(text));
}

bool execute(struct simulator *s, const uint8_t *string, size_t len, const struct bytes *random)
{
    struct cpu *cpu = this_cpu(s);
    struct instruction instruction;
    bool known = decode(string, len, &instruction);
    uint64_t handle = known && instruction.mnemonic->memory ? handle_address(&instruction, cpu->record) : 0;
    if (known && s->options.json && !s->options.quiet)
        keep_text(s, &instruction);
    uint8_t own_cpl = lend_cpl(s);
    uint32_t answer = keylocker_step(s->machine.data, s->machine.len, (uint8_t)s->processor, cpu->record, cpu->len, s->memory, s->memory_len,
                                     random == NULL ? NULL : random->data, random == NULL ? 0 : random->len, string, len);
    bool done = cpu_answered(s, known ? instruction.mnemonic->call : len == 0 ? CALL_IDLE : CALL_UNKNOWN_STEP, answer, own_cpl);
    s->last.mnemonic = known ? instruction.mnemonic : NULL;
    s->last.handle = handle;
    return done;
}

bool count(struct simulator *s, const struct counted *c)
{
    struct cpu *cpu = this_cpu(s);
    uint8_t own_cpl = lend_cpl(s);
    uint32_t answer = keylocker_ctr(s->machine.data, s->machine.len, (uint8_t)s->processor, cpu->record, cpu->len, c->handle, c->handle_len, c->counter,
                                    c->counter_len, c->buffer->data, c->buffer->len);
    return cpu_answered(s, CALL_CTR, answer, own_cpl);
}

void print_instruction(struct simulator *s, const uint8_t *string, size_t len)
{
    struct instruction instruction;
    char text[INSTRUCTION_TEXT];
    if (s->options.json || !decode(string, len, &instruction))
        return;
    instruction_text(&instruction, text);
    add_answer(s, "%s", text);
    if (instruction.mnemonic->memory)
        add_answer(s, "    the handle is at 0x%" PRIx64, handle_address(&instruction, this_cpu(s)->record));
    end_answer(s);
}
