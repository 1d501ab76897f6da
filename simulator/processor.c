#include "processor.h"

#include <inttypes.h>
#include <string.h>

#include "answer.h"
#include "cpuid.h"
#include "define.h"
#include "execute.h"
#include "expect.h"
#include "instructions.h"
#include "platform.h"
#include "print.h"
#include "reason.h"
#include "record.h"
#include "show.h"
#include "value.h"

/* ---- steps */

static void print_stepped(struct simulator *s, uint64_t rip_before)
{
    if (s->last.call == CALL_IDLE) {
        print_answer(s, "0 done: an idle step");
        return;
    }
    add_answer(s, "0 done, ZF %u: RIP is %" PRIu64 " bytes on", s->last.zf, keylocker_get_rip(this_cpu(s)->record) - rip_before);
    if (s->last.call == CALL_USE && s->last.zf) {
        add_answer(s, "; ");
        add_use_reason(s);
    }
    end_answer(s);
}

static void run_step(struct simulator *s)
{
    s->left.len = s->right.len = 0;
    if (!accept(&s->line, "empty"))
        take_bytes(s, "an instruction string in hexadecimal, or empty", &s->left);
    if (accept(&s->line, "random") && !accept(&s->line, "not-ready"))
        take_bytes(s, "not-ready or random data", &s->right);
    take_end(&s->line);
    print_statement(s);
    print_instruction(s, s->left.data, s->left.len);
    uint64_t rip = keylocker_get_rip(this_cpu(s)->record);
    if (execute(s, s->left.data, s->left.len, &s->right))
        print_stepped(s, rip);
}

/* ---- counter mode */

static void print_counted(struct simulator *s, const struct counted *c, const struct name *result)
{
    size_t len = c->buffer->len, counters = (len + 15) / 16;
    if (s->last.zf) {
        add_answer(s, "0 done, ZF 1: ");
        add_reason(s, c->handle, c->handle_len == KEYLOCKER_HANDLE_256_SIZE ? 32 : 16, true);
        print_answer(s, "; the bytes are unchanged");
        return;
    }
    if (len == 0)
        print_answer(s, "0 done, ZF 0: the handle opens, there are no bytes");
    else
        print_answer(s, "0 done, ZF 0: the handle opens, %zu byte%s XORed with %zu encrypted counter%s", len, len == 1 ? " is" : "s are", counters,
                     counters == 1 ? "" : "s");
    print_result(s, "result", result, c->buffer->data, len);
}

/* Handle and counter block are one word each, of any length, so that a trace can see others refused. */
static void run_ctr(struct simulator *s)
{
    s->left.len = s->right.len = 0;
    append_word_value(s, take_word(&s->line, "a handle"), &s->right);
    size_t handle_len = s->right.len;
    append_word_value(s, take_word(&s->line, "a counter block"), &s->right);
    if (!accept(&s->line, "empty"))
        take_bytes(s, "bytes, or empty", &s->left);
    struct name *result = take_result(s, s->left.len);
    take_end(&s->line);
    print_statement(s);
    struct counted counted = {s->right.data, s->right.data + handle_len, handle_len, s->right.len - handle_len, &s->left};
    bool done = count(s, &counted);
    if (done)
        print_counted(s, &counted, result);
    if (done && !s->last.zf)
        give_value(s, result, s->left.data, s->left.len);
    else
        take_value_away(s, result);
}

/* ---- CPUID */

static void run_cpuid(struct simulator *s)
{
    uint32_t leaf = (uint32_t)take_number(&s->line, "a leaf", UINT32_MAX);
    uint32_t subleaf = at_end(&s->line) ? 0 : (uint32_t)take_number(&s->line, "a subleaf", UINT32_MAX);
    take_end(&s->line);
    print_statement(s);
    struct cpu cpu = *this_cpu(s);
    cpu.record[KEYLOCKER_CPU_CPL] = cpl_of(s);
    uint32_t r[CPUID_REGISTERS] = {0};
    if (!answered(s, CALL_CPUID,
                  keylocker_cpuid(s->machine.data, s->machine.len, cpu.record, cpu.len, leaf, subleaf, &r[EAX], &r[EBX], &r[ECX], &r[EDX])))
        return;
    memcpy(s->last.cpuid, r, sizeof r);
    print_cpuid(s, leaf);
}

/* ---- backup registers */

static uint32_t take_register(struct simulator *s)
{
    static const struct choice backup_registers[] = {
        {"ia32_copy_status", KEYLOCKER_COPY_STATUS},
        {"ia32_iwkeybackup_status", KEYLOCKER_IWKEYBACKUP_STATUS},
        {"ia32_copy_local_to_platform", KEYLOCKER_COPY_LOCAL_TO_PLATFORM},
        {"ia32_copy_platform_to_local", KEYLOCKER_COPY_PLATFORM_TO_LOCAL},
    };
    return TAKE_CHOICE(&s->line, backup_registers, UINT32_MAX,
                       "IA32_COPY_STATUS, IA32_IWKEYBACKUP_STATUS, IA32_COPY_LOCAL_TO_PLATFORM, IA32_COPY_PLATFORM_TO_LOCAL or an address of 32 bits");
}

static void run_read(struct simulator *s)
{
    uint32_t address = take_register(s);
    take_end(&s->line);
    print_statement(s);
    uint64_t value = 0;
    if (!answered(s, CALL_READ, keylocker_read(s->machine.data, s->machine.len, (uint8_t)s->processor, cpl_of(s), address, &value)))
        return;
    s->last.value = value;
    if (address == KEYLOCKER_COPY_STATUS)
        print_answer(s, "0 done: value %" PRIu64 ", %s", value,
                     value & KEYLOCKER_COPY_STATUS_DONE ? "the last copy on this processor worked" : "no copy, or the last one on this processor failed");
    else
        print_answer(s, "0 done: value %" PRIu64 ", the backup is %svalid, error %d, consumed %d", value, value & KEYLOCKER_BACKUP_VALID ? "" : "not ",
                     (value & KEYLOCKER_BACKUP_ERROR) != 0, (value & KEYLOCKER_BACKUP_CONSUMED) != 0);
}

static size_t entry_of(struct simulator *s)
{
    return KEYLOCKER_MACHINE_ENTRIES + (size_t)s->processor * KEYLOCKER_ENTRY_SIZE;
}

static const char *write_words(struct simulator *s, uint32_t address, uint64_t value)
{
    if (value == 0)
        return "nothing is copied when 0 is written";
    bool copied = machine_byte(s, entry_of(s) + KEYLOCKER_ENTRY_COPY_STATUS);
    if (address == KEYLOCKER_COPY_PLATFORM_TO_LOCAL)
        return copied ? "copy status 1, the backup is this processor's IWKey" : "copy status 0, not copied: there is no backup";
    if (copied)
        return "copy status 1, the IWKey is in the backup, pending until it settles";
    return machine_byte(s, entry_of(s) + KEYLOCKER_IWKEY_NO_BACKUP) ? "copy status 0, not copied: the IWKey has NoBackup"
                                                                    : "copy status 0, not copied: a backup is pending";
}

static void run_write(struct simulator *s)
{
    uint32_t address = take_register(s);
    uint64_t value = take_number(&s->line, "the value to be written", UINT64_MAX);
    take_end(&s->line);
    print_statement(s);
    if (answered(s, CALL_WRITE, keylocker_write(s->machine.data, s->machine.len, (uint8_t)s->processor, cpl_of(s), address, value)))
        print_answer(s, "0 done: %s", write_words(s, address, value));
}

/* ---- the record */

static void set_record(struct simulator *s)
{
    take_bytes(s, "the CPU record's bytes", &s->left);
    take_end(&s->line);
    if (s->left.len > RECORD_ROOM)
        bad_line(&s->line, "expected a CPU record of at most %d bytes, and these are %zu", RECORD_ROOM, s->left.len);
    memcpy(this_cpu(s)->record, s->left.data, s->left.len);
    this_cpu(s)->len = s->left.len;
}

static void run_set(struct simulator *s)
{
    static const char expected[] = "a register (xmm0 to xmm15, rax to r15, rip, rflags, cpl, control) or record";
    struct word word = take_word(&s->line, expected);
    int xmm = xmm_named(word);
    const struct field *field = register_named(word);
    if (xmm < 0 && field == NULL && !word_is(word, "record"))
        bad_line(&s->line, "expected %s, not '%.*s'", expected, shown(word.len), word.text);
    take_keyword(&s->line, "=");
    if (xmm >= 0) {
        take_bytes_of(s, "a block", 16, &s->left);
        take_end(&s->line);
        memcpy(xmm_of(this_cpu(s), (unsigned)xmm), s->left.data, 16);
    } else if (field != NULL) {
        uint64_t value = take_number(&s->line, "the register's value", field->size == 8 ? UINT64_MAX : UINT8_MAX);
        take_end(&s->line);
        set_field(this_cpu(s), field, value);
    } else {
        set_record(s);
    }
    print_statement(s);
}

/* ---- dispatch */

static const struct {
    const char *name;
    void (*run)(struct simulator *s);
    bool has_cpl;
} verbs[] = {
    {"step", run_step, true},
    {"ctr", run_ctr, true},
    {"cpuid", run_cpuid, true},
    {"read", run_read, true},
    {"write", run_write, true},
    {"set", run_set, false},
    {"expect", run_expect, false},
    {"bytes", run_bytes, false},
    {"show", run_cpu_show, false},
};

static void run_verb(struct simulator *s)
{
    static const char expected[] = "an instruction (loadiwkey, encodekey128, encodekey256, aesenc128kl and so on), step, ctr, cpuid, read, write, set, "
                                   "bytes, show or expect";
    struct word word = take_word(&s->line, expected);
    const struct mnemonic *mnemonic = mnemonic_named(word);
    if (mnemonic != NULL) {
        run_instruction(s, mnemonic);
        return;
    }
    for (size_t i = 0; i < sizeof verbs / sizeof *verbs; i++) {
        if (!word_is(word, verbs[i].name))
            continue;
        if (s->cpl >= 0 && !verbs[i].has_cpl)
            bad_line(&s->line, "expected an instruction, step, ctr, cpuid, read or write behind cpl, not '%s'", verbs[i].name);
        verbs[i].run(s);
        return;
    }
    bad_line(&s->line, "expected %s, not '%.*s'", expected, shown(word.len), word.text);
}

void run_cpu(struct simulator *s)
{
    s->processor = (int)take_number(&s->line, "a processor number", CPUS - 1);
    if ((unsigned)s->processor >= s->touched)
        s->touched = (unsigned)s->processor + 1;
    if (accept(&s->line, "cpl"))
        s->cpl = (int)take_number(&s->line, "a CPL", UINT8_MAX);
    run_verb(s);
}
