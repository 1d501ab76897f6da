#include "decode.h"

#include "keylocker.h"
#include "text.h"

/* ---- strings */

/* A string that is read byte by byte; bad once it has ended, or has a byte that no instruction has. */
struct string {
    const uint8_t *bytes;
    size_t len, at;
    bool bad;
};

static uint8_t take_byte(struct string *s)
{
    s->bad |= s->at == s->len;
    return s->bad ? 0 : s->bytes[s->at++];
}

static bool accept_byte(struct string *s, uint8_t byte)
{
    bool is = s->at < s->len && s->bytes[s->at] == byte;
    s->at += is;
    return is;
}

static void need_byte(struct string *s, uint8_t byte)
{
    s->bad |= take_byte(s) != byte;
}

static uint8_t take_rex(struct string *s)
{
    return s->at < s->len && s->bytes[s->at] >> 4 == 4 ? take_byte(s) : 0;
}

static int32_t take_displacement(struct string *s, unsigned size)
{
    uint32_t value = 0;
    for (unsigned i = 0; i < size; i++)
        value |= (uint32_t)take_byte(s) << 8 * i;
    if (size == 1 && value & 0x80)
        value |= 0xFFFFFF00;
    return (int32_t)value;
}

/* SDM volume 2, tables 2-2, 2-3 and 2-5. */
static void take_place(struct string *s, uint8_t rex, unsigned mod, unsigned rm, struct instruction *i)
{
    static const unsigned sizes[] = {0, 1, 4};
    int without_base = INSTRUCTION_POINTER;
    i->index = NO_REGISTER;
    i->scale = 1;
    if (rm == 4) {
        uint8_t sib = take_byte(s);
        int index = (rex & 2) << 2 | (sib >> 3 & 7);
        i->index = index == 4 ? NO_REGISTER : index;
        i->scale = 1u << (sib >> 6);
        rm = sib & 7;
        without_base = NO_REGISTER;
    }
    bool based = mod != 0 || rm != 5;
    i->base = based ? (int)((rex & 1) << 3 | rm) : without_base;
    i->displacement = take_displacement(s, based ? sizes[mod] : 4);
}

bool decode(const uint8_t *string, size_t len, struct instruction *i)
{
    struct string s = {.bytes = string, .len = len};
    *i = (struct instruction){.lock = accept_byte(&s, 0xF0)};
    i->address_32 = accept_byte(&s, 0x67);
    need_byte(&s, 0xF3);
    uint8_t rex = take_rex(&s);
    need_byte(&s, 0x0F);
    need_byte(&s, 0x38);
    uint8_t opcode = take_byte(&s), modrm = take_byte(&s);
    unsigned mod = modrm >> 6, reg = modrm >> 3 & 7, rm = modrm & 7;
    i->mnemonic = mnemonic_of(opcode, reg, mod != 3);
    if (s.bad || i->mnemonic == NULL)
        return false;
    i->reg = (rex & 4u) << 1 | reg;
    i->rm = (rex & 1u) << 3 | rm;
    if (i->mnemonic->memory)
        take_place(&s, rex, mod, rm, i);
    i->len = s.at;
    return !s.bad;
}

/* ---- text */

static const char *const names_64[] = {"rax", "rcx", "rdx", "rbx", "rsp", "rbp", "rsi", "rdi", "r8", "r9", "r10", "r11", "r12", "r13", "r14", "r15", "rip"};
static const char *const names_32[] = {"eax", "ecx",  "edx",  "ebx",  "esp",  "ebp",  "esi",  "edi", "r8d",
                                       "r9d", "r10d", "r11d", "r12d", "r13d", "r14d", "r15d", "eip"};

/* The parts that are there. Where there is no register, with 67 the word eiz stands for none, so that the prefix shows. */
static void add_place(struct text *t, const struct instruction *i)
{
    const char *const *names = i->address_32 ? names_32 : names_64;
    int64_t displacement = i->displacement;
    bool absolute = i->base == NO_REGISTER && i->index == NO_REGISTER;
    text_add(t, "[");
    if (i->base != NO_REGISTER)
        text_add(t, names[i->base]);
    if (i->index != NO_REGISTER) {
        text_add(t, i->base == NO_REGISTER ? "" : "+");
        text_add(t, names[i->index]);
        text_add(t, "*");
        text_add_decimal(t, i->scale);
    }
    if (absolute && i->address_32) {
        text_add(t, "eiz*1+");
        text_add_hexadecimal(t, (uint32_t)i->displacement);
    } else if (displacement < 0 || displacement > 0 || absolute) {
        text_add(t, displacement < 0 ? "-" : absolute ? "" : "+");
        text_add_hexadecimal(t, (uint64_t)(displacement < 0 ? -displacement : displacement));
    }
    text_add(t, "]");
}

static void add_xmm(struct text *t, unsigned n)
{
    text_add(t, "xmm");
    text_add_decimal(t, n);
}

void instruction_text(const struct instruction *i, char text[INSTRUCTION_TEXT])
{
    const struct mnemonic *m = i->mnemonic;
    struct text t;
    text_start(&t, text, INSTRUCTION_TEXT);
    text_add(&t, i->lock ? "lock " : "");
    text_add(&t, m->name);
    text_add(&t, " ");
    if (m->call == CALL_ENCODE)
        text_add(&t, names_32[i->reg]);
    else if (!m->wide)
        add_xmm(&t, i->reg);
    text_add(&t, m->wide ? "" : ", ");
    if (m->memory)
        add_place(&t, i);
    else if (m->call == CALL_LOAD)
        add_xmm(&t, i->rm);
    else
        text_add(&t, names_32[i->rm]);
}

/* ---- the handle's place */

static uint64_t register_value(const struct instruction *i, const uint8_t *record, int n)
{
    if (n == NO_REGISTER)
        return 0;
    return n == INSTRUCTION_POINTER ? keylocker_get_rip(record) + i->len : keylocker_get_register(record, (unsigned)n);
}

uint64_t handle_address(const struct instruction *i, const uint8_t *record)
{
    uint64_t address = register_value(i, record, i->base) + i->scale * register_value(i, record, i->index) + (uint64_t)(int64_t)i->displacement;
    return i->address_32 ? address & UINT32_MAX : address;
}
