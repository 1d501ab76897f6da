#include "assemble.h"

#include <string.h>

#include "chance.h"

static const uint8_t opcodes[FORMS] = {
    [AESENC128KL] = 0xDC,     [AESDEC128KL] = 0xDD,     [AESENC256KL] = 0xDE,     [AESDEC256KL] = 0xDF,
    [AESENCWIDE128KL] = 0xD8, [AESDECWIDE128KL] = 0xD8, [AESENCWIDE256KL] = 0xD8, [AESDECWIDE256KL] = 0xD8,
    [LOADIWKEY] = 0xDC,       [ENCODEKEY128] = 0xFA,    [ENCODEKEY256] = 0xFB,
};

static void put(struct trial *t, unsigned byte)
{
    t->string_room[t->call.string.length++] = (uint8_t)byte;
}

/* REX is written where a bit is needed, and sometimes without need; W never matters */
static void begin(struct trial *t, enum form form, unsigned r, unsigned x, unsigned b)
{
    unsigned w = one_in(3), bits = w << 3 | r << 2 | x << 1 | b;
    t->form = form;
    t->meant_string = true;
    t->call.string.length = 0;
    if (t->operand.address_32)
        put(t, 0x67);
    put(t, 0xF3);
    if (bits || one_in(8))
        put(t, 0x40 | bits);
    put(t, 0x0F);
    put(t, 0x38);
    put(t, opcodes[form]);
}

/* bytes after the instruction are ignored */
static void put_tail(struct trial *t)
{
    size_t bytes = one_in(2) ? 0 : one_in(50) ? 1 + below(STRING_ROOM - 32) : 1 + below(12);
    any_bytes(t->string_room + t->call.string.length, bytes);
    t->call.string.length += bytes;
}

void assemble_registers(struct trial *t, enum form form, unsigned reg, unsigned rm)
{
    t->operand = (struct operand){.address_32 = one_in(3)};
    begin(t, form, reg >> 3, one_in(3), rm >> 3);
    put(t, 0xC0 | (reg & 7) << 3 | (rm & 7));
    t->operand.length = t->call.string.length;
    put_tail(t);
}

static unsigned but_not(unsigned bound, unsigned low_bits)
{
    unsigned number;
    do
        number = (unsigned)below(bound);
    while ((number & 7) == low_bits);
    return number;
}

/* base, index, scale and mod of a random operand, as numbers of registers; often those of the stack segment, and those that share their lower bits */
static void choose_operand(struct operand *o, unsigned *mod)
{
    o->shape = (enum operand_shape)below(SHAPES);
    o->address_32 = one_in(3);
    o->base = o->index = NO_REGISTER;
    o->scale = (unsigned)below(4);
    *mod = 0;
    switch (o->shape) {
    case SHAPE_BASE:
    case SHAPE_BASE_8:
    case SHAPE_BASE_32:
        *mod = o->shape - SHAPE_BASE;
        do
            o->base = but_not(16, 4);
        while (*mod == 0 && (o->base & 7) == 5);
        if (*mod != 0 && one_in(3))
            o->base = one_in(3) ? R13 : RBP;
        break;
    case SHAPE_SIB_BASE:
    case SHAPE_SIB_BASE_INDEX:
    case SHAPE_SIB_BASE_TWICE:
        *mod = (unsigned)below(3);
        o->base = one_in(3) ? RSP : one_in(8) ? R12 : *mod == 0 ? but_not(16, 5) : (unsigned)below(16);
        if (o->shape == SHAPE_SIB_BASE_TWICE && o->base == RSP)
            o->base = RBX;
        do
            o->index = o->shape == SHAPE_SIB_BASE_TWICE ? o->base : (unsigned)below(16);
        while (o->index == RSP);
        if (o->shape == SHAPE_SIB_BASE)
            o->index = NO_REGISTER;
        break;
    case SHAPE_SIB_INDEX:
        do
            o->index = (unsigned)below(16);
        while (o->index == RSP);
        break;
    default:
        break;
    }
}

static bool has_sib(const struct operand *o)
{
    return o->shape >= SHAPE_SIB_BASE && o->shape <= SHAPE_SIB_NEITHER;
}

/* ModRM, SIB and room for the displacement */
static void put_operand(struct trial *t, unsigned reg, unsigned mod)
{
    struct operand *o = &t->operand;
    bool no_base = o->base == NO_REGISTER;
    put(t, mod << 6 | (reg & 7) << 3 | (has_sib(o) ? 4 : no_base ? 5 : o->base & 7));
    if (has_sib(o))
        put(t, o->scale << 6 | (o->index == NO_REGISTER ? 4 : o->index & 7) << 3 | (no_base ? 5 : o->base & 7));
    o->displacement_bytes = no_base || mod == 2 ? 4 : mod == 1 ? 1 : 0;
    o->displacement_at = t->call.string.length;
    t->call.string.length += o->displacement_bytes;
    o->length = t->call.string.length;
}

void assemble_use(struct trial *t, enum form form, unsigned block, uint64_t target)
{
    static const unsigned wide_reg[] = {[AESENCWIDE128KL] = 0, [AESDECWIDE128KL] = 1, [AESENCWIDE256KL] = 2, [AESDECWIDE256KL] = 3};
    do {
        unsigned mod, x = one_in(3), b = one_in(3);
        choose_operand(&t->operand, &mod);
        if (t->operand.base != NO_REGISTER)
            b = t->operand.base >> 3;
        if (t->operand.index != NO_REGISTER)
            x = t->operand.index >> 3;
        else if (has_sib(&t->operand))
            x = 0; /* index 4 with REX.X is R12 */
        begin(t, form, is_wide(form) ? one_in(3) : block >> 3, x, b);
        put_operand(t, is_wide(form) ? wide_reg[form] : block, mod);
    } while (!aim(t, target));
    put_tail(t);
}

/* a number whose product with an odd factor is value, modulo 2^64 (Newton's steps) */
static uint64_t divide_by_odd(uint64_t value, uint64_t factor)
{
    uint64_t inverse = factor;
    for (int i = 0; i < 6; i++)
        inverse *= 2 - factor * inverse;
    return value * inverse;
}

/* base and index are one register, times 2, 3, 5 or 9 */
static bool aim_twice(struct cpu *cpu, const struct operand *o, uint64_t rest)
{
    if (o->scale == 0 && rest & 1)
        return false;
    store64(cpu->registers[o->base], o->scale == 0 ? rest >> 1 | (uint64_t)one_in(2) << 63 : divide_by_odd(rest, (UINT64_C(1) << o->scale) + 1));
    return true;
}

static int64_t any_displacement(size_t bytes)
{
    static const int32_t edges[] = {0, 1, -1, 127, 128, -128, -129, INT32_MAX, INT32_MIN};
    int32_t value = one_in(4) ? edges[below(sizeof edges / sizeof *edges)] : one_in(2) ? (int32_t)any64() : (int32_t)below(4096) - 2048;
    return bytes == 0 ? 0 : bytes == 1 ? (int8_t)value : value;
}

/* the index takes what its scale can, the displacement the rest; bits that the scale shifts out are free */
static bool aim_index(struct cpu *cpu, const struct operand *o, uint64_t target, int64_t *displacement)
{
    uint64_t spare = o->scale == 0 ? 0 : any64() << (64 - o->scale);
    *displacement = one_in(2) ? (int32_t)any64() / 2 : (int64_t)below(256) - 128;
    uint64_t index = (target - (uint64_t)*displacement) >> o->scale;
    store64(cpu->registers[o->index], index | spare);
    *displacement = (int64_t)(target - (index << o->scale));
    return true;
}

/* What 67 drops of the sum, so that only its lower half is the address: nothing, a carry, a borrow, what makes the sum not canonical or just canonical,
 * or any bits. */
static uint64_t dropped_bits(void)
{
    static const uint32_t edges[] = {0, 1, UINT32_MAX, 2, 0x7FFF, 0x8000, 0xFFFF7FFF, 0xFFFF8000, 0x80000000};
    return (uint64_t)(one_in(2) ? edges[below(sizeof edges / sizeof *edges)] : (uint32_t)any64()) << 32;
}

/* a displacement alone: sign-extended, so that without 67 it reaches the lowest and the highest 2 GiB */
static bool aim_displacement(const struct operand *o, uint64_t target, int64_t *displacement)
{
    *displacement = o->address_32 ? (int32_t)target : (int64_t)target;
    return *displacement >= INT32_MIN && *displacement <= INT32_MAX;
}

bool aim(struct trial *t, uint64_t target)
{
    const struct operand *o = &t->operand;
    struct cpu *cpu = trial_cpu(t);
    int64_t displacement = any_displacement(o->displacement_bytes);
    uint64_t sum = target + (o->address_32 ? dropped_bits() : 0), rest = sum - (uint64_t)displacement;
    bool reached = true;
    if (o->shape == SHAPE_RIP_RELATIVE) {
        store64(cpu->rip, rest - o->length);
    } else if (o->shape == SHAPE_SIB_NEITHER) {
        reached = aim_displacement(o, target, &displacement);
    } else if (o->shape == SHAPE_SIB_INDEX) {
        reached = aim_index(cpu, o, sum, &displacement);
    } else if (o->base == o->index) {
        reached = aim_twice(cpu, o, rest);
    } else {
        uint64_t indexed = o->index == NO_REGISTER ? 0 : load64(cpu->registers[o->index]) << o->scale;
        store64(cpu->registers[o->base], rest - indexed);
    }
    for (size_t i = 0; reached && i < o->displacement_bytes; i++)
        t->string_room[o->displacement_at + i] = (uint8_t)((uint64_t)displacement >> 8 * i);
    if (reached)
        t->target = target;
    return reached;
}

static void put_first(struct trial *t, uint8_t prefix)
{
    memmove(t->string_room + 1, t->string_room, t->call.string.length++);
    t->string_room[0] = prefix;
    t->operand.displacement_at++;
    t->operand.length++;
}

void put_lock(struct trial *t)
{
    put_first(t, 0xF0);
}

void put_address_size(struct trial *t)
{
    put_first(t, 0x67);
    t->operand.address_32 = true;
}

void drop_address_size(struct trial *t)
{
    memmove(t->string_room, t->string_room + 1, --t->call.string.length);
    t->operand.displacement_at--;
    t->operand.length--;
    t->operand.address_32 = false;
}
