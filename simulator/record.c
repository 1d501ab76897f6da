#include "record.h"

#define GENERAL(name, n) {name, KEYLOCKER_CPU_REGISTERS + 8 * (n), 8}

static const struct field fields[] = {
    GENERAL("rax", KEYLOCKER_RAX),
    GENERAL("rcx", KEYLOCKER_RCX),
    GENERAL("rdx", KEYLOCKER_RDX),
    GENERAL("rbx", KEYLOCKER_RBX),
    GENERAL("rsp", KEYLOCKER_RSP),
    GENERAL("rbp", KEYLOCKER_RBP),
    GENERAL("rsi", KEYLOCKER_RSI),
    GENERAL("rdi", KEYLOCKER_RDI),
    GENERAL("r8", 8),
    GENERAL("r9", 9),
    GENERAL("r10", 10),
    GENERAL("r11", 11),
    GENERAL("r12", 12),
    GENERAL("r13", 13),
    GENERAL("r14", 14),
    GENERAL("r15", 15),
    {"rip", KEYLOCKER_CPU_RIP, 8},
    {"rflags", KEYLOCKER_CPU_RFLAGS, 8},
    {"cpl", KEYLOCKER_CPU_CPL, 1},
    {"control", KEYLOCKER_CPU_CONTROL, 1},
};

enum { FIELDS = sizeof fields / sizeof *fields };

int xmm_named(struct word word)
{
    uint64_t n;
    if (word.len < 4 || word.len > 5 || !word_is((struct word){word.text, 3}, "xmm"))
        return -1;
    if (!number_in(word.text + 3, word.len - 3, &n) || n > 15 || (word.len == 5 && n < 10))
        return -1;
    return (int)n;
}

const struct field *register_named(struct word word)
{
    for (size_t i = 0; i < FIELDS; i++)
        if (word_is(word, fields[i].name))
            return &fields[i];
    return NULL;
}

const struct field *register_numbered(size_t n)
{
    return n < FIELDS ? &fields[n] : NULL;
}

uint8_t *xmm_of(struct cpu *cpu, unsigned n)
{
    return cpu->record + KEYLOCKER_CPU_XMM + 16 * n;
}

uint64_t get_field(const struct cpu *cpu, const struct field *field)
{
    return field->size == 1 ? cpu->record[field->at] : keylocker_get_64(cpu->record, field->at);
}

void set_field(struct cpu *cpu, const struct field *field, uint64_t value)
{
    if (field->size == 1)
        cpu->record[field->at] = (uint8_t)value;
    else
        keylocker_set_64(cpu->record, field->at, value);
}
