#include "probe.h"

#include <string.h>

#include "chance.h"
#include "coverage.h"
#include "faults.h"
#include "keylocker.h"
#include "refusals.h"

/* what a program knows that has asked for leaf 7, subleaf 0, and leaf 0x19 */
struct probe {
    uint32_t leaf_7[LEAF_REGISTERS], leaf_19[LEAF_REGISTERS];
};

static bool ask(struct buffer machine, const struct cpu *cpu, uint32_t leaf, uint32_t subleaf, uint32_t answer[LEAF_REGISTERS])
{
    return keylocker_cpuid(machine.bytes, machine.length, (const uint8_t *)cpu, sizeof *cpu, leaf, subleaf, &answer[EAX], &answer[EBX], &answer[ECX],
                           &answer[EDX]) == KEYLOCKER_DONE;
}

/* as if CPUID were answered from something else than the machine's features */
static void drift(struct probe *p)
{
    if (FAULT(DRIFT_KL))
        p->leaf_7[ECX] |= KEYLOCKER_CPUID_7_ECX_KL;
    if (FAULT(DRIFT_AESKLE))
        p->leaf_19[EBX] |= KEYLOCKER_CPUID_19_EBX_AESKLE;
    if (FAULT(DRIFT_WIDE))
        p->leaf_19[EBX] |= KEYLOCKER_CPUID_19_EBX_WIDE_KL;
    if (FAULT(DRIFT_BACKUP))
        p->leaf_19[EBX] |= KEYLOCKER_CPUID_19_EBX_BACKUP;
    if (FAULT(DRIFT_NO_BACKUP))
        p->leaf_19[ECX] |= KEYLOCKER_CPUID_19_ECX_NO_BACKUP;
    if (FAULT(DRIFT_RANDOM))
        p->leaf_19[ECX] |= KEYLOCKER_CPUID_19_ECX_RANDOM;
    if (FAULT(DRIFT_RESTRICTIONS))
        p->leaf_19[EAX] &= ~(uint32_t)KEYLOCKER_CPUID_19_EAX_NO_DECRYPT;
}

/* false if CPUID was refused, which it may not be after a call that was not refused for machine and CPU record */
static bool make_probe(struct buffer machine, const struct cpu *cpu, struct probe *p)
{
    bool done = ask(machine, cpu, 7, 0, p->leaf_7) && ask(machine, cpu, 0x19, (uint32_t)any64(), p->leaf_19);
    if (FAULTY)
        drift(p);
    return done;
}

/* sections 3.2.5 to 3.12.5: LOADIWKEY's list alone is without AESKLE, and the wide forms' have one line more */
static bool foretells_ud(const struct probe *p, const struct cpu *cpu, const struct instruction *instruction)
{
    if (instruction->lock)
        return true;
    if (!(p->leaf_7[ECX] & KEYLOCKER_CPUID_7_ECX_KL) || !(cpu->control & C_CR4_KL))
        return true;
    if (instruction->form != LOADIWKEY && !(p->leaf_19[EBX] & KEYLOCKER_CPUID_19_EBX_AESKLE))
        return true;
    if (cpu->control & C_EM || !(cpu->control & C_OSFXSR))
        return true;
    return is_wide(instruction->form) && !(p->leaf_19[EBX] & KEYLOCKER_CPUID_19_EBX_WIDE_KL);
}

/* section 3.12.5 */
static bool foretells_load_gp(const struct probe *p, const struct cpu *cpu)
{
    uint32_t eax = load32(cpu->registers[RAX]), source = eax >> 1 & 15;
    if (cpu->cpl > 0 || source > 1 || eax >> 5)
        return true;
    return (eax & 1 && !(p->leaf_19[ECX] & KEYLOCKER_CPUID_19_ECX_NO_BACKUP)) || (source == 1 && !(p->leaf_19[ECX] & KEYLOCKER_CPUID_19_ECX_RANDOM));
}

/* sections 3.10.3 and 3.11.3, footnote 1: a source bit is reserved where EAX of leaf 19H lacks it */
static bool foretells_encode_gp(const struct probe *p, const struct cpu *cpu, const struct instruction *instruction)
{
    return load32(cpu->registers[instruction->rm]) & ~p->leaf_19[EAX];
}

/* section 4.1: the registers are there if EBX bit 4 of leaf 19H and KL are 1 */
static bool foretells_register_gp(const struct probe *p)
{
    return !(p->leaf_19[EBX] & KEYLOCKER_CPUID_19_EBX_BACKUP) || !(p->leaf_7[ECX] & KEYLOCKER_CPUID_7_ECX_KL);
}

/* notes what was foretold, and says whether it is what came */
static bool meets(enum probed probed, bool foretold, bool came)
{
    cover_probe(probed, foretold);
    return foretold == came;
}

static enum probed ud_of(enum form form)
{
    return form == LOADIWKEY ? PROBED_UD_LOAD : is_wide(form) ? PROBED_UD_WIDE : is_use(form) ? PROBED_UD_USE : PROBED_UD_ENCODE;
}

/* an instruction that passed 9: #UD, and past 11 the #GP of LOADIWKEY and ENCODEKEY; nothing is foretold of an idle step */
static const char *step_differs(const struct trial *t, uint32_t number)
{
    struct cpu cpu;
    struct probe p;
    struct instruction instruction;
    if ((number != DONE && number < R10_UD) || decode(t->call.string, &instruction) || instruction.form == IDLE)
        return NULL;
    memcpy(&cpu, t->call.cpu.bytes, sizeof cpu);
    if (!make_probe(t->machine, &cpu, &p))
        return "CPUID is refused beside a step";
    if (!meets(ud_of(instruction.form), foretells_ud(&p, &cpu, &instruction), number == R10_UD))
        return "#UD is not as CPUID foretells";
    if (number == R10_UD || number == R11_NM || is_use(instruction.form))
        return NULL;
    if (instruction.form == LOADIWKEY)
        return meets(PROBED_GP_LOAD, foretells_load_gp(&p, &cpu), number == R12_GP) ? NULL : "#GP of LOADIWKEY is not as CPUID foretells";
    return meets(PROBED_GP_ENCODE, foretells_encode_gp(&p, &cpu, &instruction), number == R12_GP) ? NULL : "#GP of ENCODEKEY is not as CPUID foretells";
}

/* a counter call that passed 18: #UD as of the single form, so the wide forms need not show */
static const char *ctr_differs(const struct trial *t, uint32_t number)
{
    struct cpu cpu;
    struct probe p;
    struct instruction single = {.form = AESENC128KL};
    if (number != DONE && number != R10_UD && number != R11_NM)
        return NULL;
    memcpy(&cpu, t->call.cpu.bytes, sizeof cpu);
    if (!make_probe(t->machine, &cpu, &p))
        return "CPUID is refused beside a counter call";
    return meets(PROBED_UD_CTR, foretells_ud(&p, &cpu, &single), number == R10_UD) ? NULL : "#UD of a counter call is not as CPUID foretells";
}

/* at CPL 0, an address in its direction, a value without reserved bits: only whether there are such registers is left to ask */
static bool is_plain(const struct call *call)
{
    if (call->kind == READ)
        return call->cpl == 0 && (call->address == COPY_STATUS || call->address == BACKUP_STATUS);
    return call->cpl == 0 && (call->address == COPY_OUT || call->address == COPY_IN) && call->value < 2;
}

/* The call has no CPU record; neither CPL nor control bits show in what is asked for. */
static const char *register_differs(const struct trial *t, uint32_t number)
{
    struct cpu cpu = {.cpl = (uint8_t)below(4), .control = (uint8_t)below(C_ALL + 1)};
    struct probe p;
    if ((number != DONE && number != R12_GP) || !is_plain(&t->call))
        return NULL;
    if (!make_probe(t->machine, &cpu, &p))
        return "CPUID is refused beside a register call";
    return meets(PROBED_GP_REGISTER, foretells_register_gp(&p), number == R12_GP) ? NULL : "#GP of a backup register is not as CPUID foretells";
}

const char *probe_differs(const struct trial *t, const struct run *library)
{
    switch (t->call.kind) {
    case STEP:
        return step_differs(t, library->number);
    case CTR:
        return ctr_differs(t, library->number);
    case READ:
    case WRITE:
        return register_differs(t, library->number);
    default:
        return NULL;
    }
}
