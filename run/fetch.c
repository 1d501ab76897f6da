#include "fetch.h"

#include <asm/prctl.h>
#include <string.h>

#include "keylocker.h"
#include "memory.h"
#include "system.h"

/* ---- prefixes (SDM volume 2, section 2.1.1) */

enum { BREAKPOINT = 0xCC, LOCK = 0xF0, REP = 0xF3, ADDRESS_SIZE = 0x67, FS = 0x64, GS = 0x65, CS = 0x2E, SS = 0x36, DS = 0x3E, ES = 0x26 };

struct prefixes {
    bool lock, rep, address_size;
    uint8_t segment;
};

/* In 64-bit mode the other four segments are ignored: assemblers pad instructions with them. */
static bool take_prefix(uint8_t byte, struct prefixes *p)
{
    p->lock |= byte == LOCK;
    p->rep |= byte == REP;
    p->address_size |= byte == ADDRESS_SIZE;
    if (byte == FS || byte == GS)
        p->segment = byte;
    return byte == LOCK || byte == REP || byte == ADDRESS_SIZE || byte == FS || byte == GS || byte == CS || byte == SS || byte == DS || byte == ES;
}

/* As the library takes them. */
static size_t put_prefixes(const struct prefixes *p, uint8_t *string)
{
    size_t len = 0;
    if (p->lock)
        string[len++] = LOCK;
    if (p->address_size)
        string[len++] = ADDRESS_SIZE;
    string[len++] = REP;
    return len;
}

bool fetch(uint64_t address, struct fetched *f)
{
    uint8_t bytes[LONGEST_INSTRUCTION];
    size_t count = read_code(address, bytes, sizeof bytes), at = 0;
    struct prefixes prefixes = {0};
    if (count > 0 && bytes[0] == BREAKPOINT)
        bytes[0] = REP; // a debugger's: one of the program's own would not be SIGILL
    while (at < count && take_prefix(bytes[at], &prefixes))
        at++;
    if (!prefixes.rep)
        return false;
    size_t kept = put_prefixes(&prefixes, f->string);
    memcpy(f->string + kept, bytes + at, count - at);
    f->dropped = at - kept;
    f->segment = prefixes.segment;
    if (!decode(f->string, kept + count - at, &f->instruction))
        return false;
    f->len = f->instruction.len;
    return true;
}

size_t fetched_len(const struct fetched *f)
{
    return f->dropped + f->len;
}

/* ---- the operand in memory */

static uint64_t segment_base(uint8_t segment)
{
    uint64_t base = 0;
    if (segment != 0)
        SYSTEM(SYS_arch_prctl, segment == FS ? ARCH_GET_FS : ARCH_GET_GS, &base);
    return base;
}

/* Relative to RIP it counts from the next instruction, and so the prefixes that were dropped count. */
uint64_t fetched_address(const struct fetched *f, const uint8_t *record)
{
    bool relative = f->instruction.base == INSTRUCTION_POINTER;
    uint64_t address = handle_address(&f->instruction, record) + (relative ? f->dropped : 0);
    return segment_base(f->segment) + (f->instruction.address_32 ? (uint32_t)address : address);
}

bool in_stack_segment(const struct fetched *f)
{
    return f->segment == 0 && (f->instruction.base == KEYLOCKER_RSP || f->instruction.base == KEYLOCKER_RBP);
}

size_t rewrite_operand(const struct fetched *f, uint8_t string[STRING_ROOM])
{
    enum { MODRM_REG = 0x38, MODRM_SIB = 4, SIB_ABSOLUTE = 0x25, REX_X_B = 3 };
    const uint8_t *from = f->string;
    size_t len = 0;
    while (*from != REP)
        from++;
    string[len++] = *from++;
    if (*from >> 4 == 4)
        string[len++] = (uint8_t)(*from++ & ~REX_X_B);
    for (int i = 0; i < 3; i++) // 0F 38 and the opcode
        string[len++] = *from++;
    string[len++] = (uint8_t)((*from & MODRM_REG) | MODRM_SIB);
    string[len++] = SIB_ABSOLUTE;
    memset(string + len, 0, 4);
    return len + 4;
}
