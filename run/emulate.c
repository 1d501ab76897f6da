#include "emulate.h"

#include <string.h>

#include "actions.h"
#include "counts.h"
#include "fetch.h"
#include "keylocker.h"
#include "machine.h"
#include "map.h"
#include "memory.h"
#include "trace.h"

/* ---- registers */

/* In the order of the CPU record. */
static const int registers[16] = {REG_RAX, REG_RCX, REG_RDX, REG_RBX, REG_RSP, REG_RBP, REG_RSI, REG_RDI,
                                  REG_R8,  REG_R9,  REG_R10, REG_R11, REG_R12, REG_R13, REG_R14, REG_R15};

void record_of(const ucontext_t *context, uint8_t *record)
{
    const greg_t *gregs = context->uc_mcontext.gregs;
    memset(record, 0, KEYLOCKER_CPU_SIZE);
    memcpy(record + KEYLOCKER_CPU_XMM, context->uc_mcontext.fpregs->_xmm, 16 * 16);
    for (unsigned n = 0; n < 16; n++)
        keylocker_set_register(record, n, (uint64_t)gregs[registers[n]]);
    keylocker_set_rip(record, (uint64_t)gregs[REG_RIP]);
    keylocker_set_rflags(record, (uint64_t)gregs[REG_EFL]);
    record[KEYLOCKER_CPU_CPL] = 3;
    record[KEYLOCKER_CPU_CONTROL] = KEYLOCKER_CONTROL_CR4_KL | KEYLOCKER_CONTROL_CR4_OSFXSR;
}

/* RF, which the fault has set, is for the instruction that it came at. */
static void put_registers(ucontext_t *context, const uint8_t *record)
{
    enum { RFLAGS_RF = 0x10000 };
    greg_t *gregs = context->uc_mcontext.gregs;
    memcpy(context->uc_mcontext.fpregs->_xmm, record + KEYLOCKER_CPU_XMM, 16 * 16);
    for (unsigned n = 0; n < 16; n++)
        gregs[registers[n]] = (greg_t)keylocker_get_register(record, n);
    gregs[REG_RIP] = (greg_t)keylocker_get_rip(record);
    gregs[REG_EFL] = (greg_t)(keylocker_get_rflags(record) & ~(uint64_t)RFLAGS_RF);
}

/* ---- the handle */

static bool canonical(uint64_t address)
{
    uint64_t top = address >> 47;
    return top == 0 || top == UINT64_MAX >> 47;
}

/* Reads the handle; where it cannot be read, the signal that is sent for that. */
static void read_handle(const struct fetched *f, const struct self *self, struct emulated *e, siginfo_t *fault)
{
    uint64_t address = fetched_address(f, e->before);
    size_t len = f->instruction.mnemonic->key_size == 32 ? KEYLOCKER_HANDLE_256_SIZE : KEYLOCKER_HANDLE_128_SIZE;
    if (!canonical(address) || !canonical(address + len - 1)) {
        *fault = (siginfo_t){.si_signo = in_stack_segment(f) ? SIGBUS : SIGSEGV, .si_code = SI_KERNEL};
        return;
    }
    size_t count = read_memory(self, address, e->handle, len);
    if (count < len)
        memory_fault(address + count, fault);
    else
        e->handle_len = len;
}

/* ---- the instruction */

static struct counts *counts;

void emulate_start(const char *counts_path, const char *trace_path)
{
    int error;
    counts = counts_path == NULL ? NULL : map_file(counts_path, sizeof *counts, &error);
    trace_start(trace_path);
}

struct emulation {
    ucontext_t *context;
    const struct fetched *fetched;
    siginfo_t fault; /* of the handle's address, with si_signo 0 where there is none */
    struct emulated e;
};

/* Of a string that has LOCK nothing is rewritten: it is #UD as it stands. */
static uint32_t step(uint8_t *block, struct emulation *m)
{
    const struct fetched *f = m->fetched;
    uint8_t string[STRING_ROOM];
    size_t len = f->len;
    if (f->instruction.mnemonic->memory && !f->instruction.lock)
        len = rewrite_operand(f, string);
    else
        memcpy(string, f->string, len);
    uint32_t answer = keylocker_step(block, KEYLOCKER_MACHINE_SIZE, 0, m->e.after, KEYLOCKER_CPU_SIZE, m->e.handle, m->e.handle_len, NULL, 0, string, len);
    keylocker_set_rip(m->e.after, keylocker_get_rip(m->e.before) + fetched_len(f));
    return answer;
}

/* The signal that Linux sends for an exception; si_signo 0 for SIGILL, which is here already. */
static void choose_signal(struct emulation *m)
{
    if (m->e.answer == KEYLOCKER_GP)
        m->fault = (siginfo_t){.si_signo = SIGSEGV, .si_code = SI_KERNEL};
    else if (m->e.answer != KEYLOCKER_PF)
        m->fault.si_signo = 0;
    m->e.signal = m->fault.si_signo == 0 ? SIGILL : m->fault.si_signo;
}

static void count(const struct emulated *e)
{
    if (counts == NULL)
        return;
    size_t kind = (size_t)(e->instruction->mnemonic - mnemonics);
    bool done = e->answer == KEYLOCKER_DONE;
    atomic_fetch_add(done ? &counts->done[kind] : &counts->signals[kind], 1);
    if (done && keylocker_get_zf(e->after))
        atomic_fetch_add(&counts->failed[kind], 1);
}

static void execute(uint8_t *block, void *argument)
{
    struct emulation *m = argument;
    m->e.answer = step(block, m);
    if (m->e.answer == KEYLOCKER_DONE)
        put_registers(m->context, m->e.after);
    else
        choose_signal(m);
    if (m->e.answer == KEYLOCKER_BAD_MACHINE)
        machine_damaged();
    count(&m->e);
    trace(&m->e);
}

bool emulate(ucontext_t *context, const struct self *self)
{
    struct fetched f;
    if (!fetch((uint64_t)context->uc_mcontext.gregs[REG_RIP], &f) || !machine_there())
        return false;
    struct emulation m = {.context = context, .fetched = &f, .e = {.instruction = &f.instruction}};
    record_of(context, m.e.before);
    memcpy(m.e.after, m.e.before, sizeof m.e.after);
    if (f.instruction.mnemonic->memory)
        read_handle(&f, self, &m.e, &m.fault);
    with_machine(self, execute, &m);
    bool done = m.e.answer == KEYLOCKER_DONE, sent = !done && m.fault.si_signo != 0;
    if (sent)
        send_fault(&m.fault, context);
    return done || sent;
}
