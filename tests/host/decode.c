#include "decode.h"

#include "faults.h"

enum { BAD_BYTE = 8, STRING_ENDS = 9 };
enum { LOCK = 0xF0, ADDRESS_SIZE = 0x67, OPERAND_SIZE = 0x66, REP = 0xF3 };
enum { REX_B = 1, REX_X = 2, REX_R = 4, REX_W = 8 };

struct reader {
    struct buffer string;
    size_t at;
};

struct prefixes {
    bool lock, address_32;
    uint8_t rex; /* its lower half; 0 without one */
};

static uint32_t next(struct reader *reader, uint8_t *byte)
{
    if (reader->at == reader->string.length)
        return STRING_ENDS;
    *byte = reader->string.bytes[reader->at++];
    return 0;
}

static uint32_t next_is(struct reader *reader, uint8_t wanted)
{
    uint8_t byte;
    uint32_t refusal = next(reader, &byte);
    return refusal ? refusal : byte != wanted ? BAD_BYTE : 0;
}

/* steps over the byte if it is the next one */
static bool skips(struct reader *reader, uint8_t byte)
{
    bool found = reader->at < reader->string.length && reader->string.bytes[reader->at] == byte;
    reader->at += found;
    return found;
}

static bool skips_rex(struct reader *reader, uint8_t *rex)
{
    bool found = reader->at < reader->string.length && reader->string.bytes[reader->at] >> 4 == 4;
    if (found)
        *rex = reader->string.bytes[reader->at++] & 0x0F;
    return found;
}

/* optional F0, optional 67 */
static uint32_t read_legacy_prefixes(struct reader *reader, struct prefixes *prefixes)
{
    uint8_t size = FAULT(OPERAND_SIZE_TAKEN) ? OPERAND_SIZE : ADDRESS_SIZE;
    bool before = FAULT(ADDRESS_SIZE_BEFORE_LOCK) && skips(reader, size);
    prefixes->lock = skips(reader, LOCK);
    prefixes->address_32 = before || skips(reader, size);
    if (FAULT(TWO_ADDRESS_SIZES) && prefixes->address_32)
        skips(reader, size);
    if (FAULT(LOCK_ADDRESS_SIZE) && prefixes->lock && prefixes->address_32)
        return BAD_BYTE;
    if (FAULT(ADDRESS_SIZE_AT_END) && prefixes->address_32 && reader->at == reader->string.length)
        return BAD_BYTE;
    return 0;
}

/* these, F3, at most one REX byte, 0F 38 */
static uint32_t read_prefixes(struct reader *reader, struct prefixes *prefixes)
{
    uint32_t refusal = read_legacy_prefixes(reader, prefixes);
    if (refusal || (refusal = next_is(reader, REP)))
        return refusal;
    if (FAULT(ADDRESS_SIZE_BEHIND_F3))
        prefixes->address_32 |= skips(reader, ADDRESS_SIZE);
    prefixes->rex = 0;
    for (bool more = true; more && skips_rex(reader, &prefixes->rex); more = FAULT(TWO_REX))
        if (FAULT(ADDRESS_SIZE_BEHIND_REX))
            prefixes->address_32 |= skips(reader, ADDRESS_SIZE);
    refusal = next_is(reader, 0x0F);
    return refusal ? refusal : next_is(reader, 0x38);
}

/* which instruction an opcode and the fields of its ModRM byte are; false if none */
static bool find_form(uint8_t opcode, unsigned mod, unsigned reg, enum form *form)
{
    static const enum form wide[4] = {AESENCWIDE128KL, AESDECWIDE128KL, AESENCWIDE256KL, AESDECWIDE256KL};
    switch (opcode) {
    case 0xDC:
        *form = mod == 3 ? LOADIWKEY : AESENC128KL;
        return true;
    case 0xDD:
        *form = AESDEC128KL;
        return mod != 3;
    case 0xDE:
        *form = AESENC256KL;
        return mod != 3;
    case 0xDF:
        *form = AESDEC256KL;
        return mod != 3;
    case 0xD8:
        *form = wide[reg & 3];
        return mod != 3 && reg < 4;
    case 0xFA:
        *form = ENCODEKEY128;
        return mod == 3;
    default:
        *form = ENCODEKEY256;
        return mod == 3;
    }
}

static bool is_opcode(uint8_t byte)
{
    return byte == 0xD8 || (byte >= 0xDC && byte <= 0xDF) || byte == 0xFA || byte == 0xFB;
}

/* 1 or 4 bytes, sign-extended */
static uint32_t read_displacement(struct reader *reader, unsigned bytes, int64_t *displacement)
{
    uint8_t value[4] = {0};
    for (unsigned i = 0; i < bytes; i++) {
        uint32_t refusal = next(reader, &value[i]);
        if (refusal)
            return refusal;
    }
    if (bytes == 1)
        *displacement = FAULT(DISP8_UNSIGNED) ? value[0] : (int8_t)value[0];
    else
        *displacement = FAULT(DISP32_UNSIGNED) ? (int64_t)load32(value) : (int32_t)load32(value);
    return 0;
}

/* Intel's SIB rules: index 4 without REX.X is none, base 5 with mod 0 is none and has a displacement of four bytes */
static uint32_t read_sib(struct reader *reader, uint8_t rex, unsigned mod, struct place *place)
{
    uint8_t sib;
    uint32_t refusal = next(reader, &sib);
    if (refusal)
        return refusal;
    place->scale = sib >> 6;
    place->index = (sib >> 3 & 7) | (rex & REX_X ? 8 : 0);
    if (place->index == RSP || (FAULT(REX_X_INDEX_4) && place->index == R12))
        place->index = NO_REGISTER;
    place->base = (sib & 7) | (rex & REX_B ? 8 : 0);
    if (mod == 0 && (sib & 7) == 5 && !(FAULT(REX_B_WITHOUT_BASE) && rex & REX_B))
        place->base = NO_REGISTER;
    return 0;
}

/* Intel's 64-bit ModRM rules: r/m 4 has a SIB byte, r/m 5 with mod 0 is relative to RIP, both whatever REX.B is */
static uint32_t read_place(struct reader *reader, const struct prefixes *prefixes, unsigned mod, unsigned rm, struct place *place)
{
    bool four = mod == 2;
    uint8_t rex = prefixes->rex;
    unsigned most = FAULT(ADDRESS_SIZE_DISP16) && prefixes->address_32 ? 2 : 4;
    *place = (struct place){.base = rm | (rex & REX_B ? 8 : 0), .index = NO_REGISTER};
    if (rm == 4) {
        uint32_t refusal = read_sib(reader, rex, mod, place);
        if (refusal)
            return refusal;
        four |= mod == 0 && (place->base == NO_REGISTER || (place->base & 7) == 5);
    } else if (mod == 0 && rm == 5) {
        place->rip_relative = !(FAULT(REX_B_RIP) && rex & REX_B);
        if (place->rip_relative)
            place->base = NO_REGISTER;
        four = true;
    }
    return four ? read_displacement(reader, most, &place->displacement) : mod == 1 ? read_displacement(reader, 1, &place->displacement) : 0;
}

/* A prefix alone is the beginning of an instruction. */
static bool is_idle_string(struct buffer string)
{
    uint8_t fault = FAULT(LOCK_IDLE) ? LOCK : FAULT(ADDRESS_SIZE_IDLE) ? ADDRESS_SIZE : FAULT(REP_IDLE) ? REP : 0;
    if (fault && string.length == 1 && string.bytes[0] == fault)
        return true;
    return string.length == 0 && !FAULT(IDLE_STRING_ENDS);
}

uint32_t decode(struct buffer string, struct instruction *instruction)
{
    struct reader reader = {string, 0};
    struct prefixes prefixes;
    uint8_t opcode, modrm;
    if (is_idle_string(string)) {
        *instruction = (struct instruction){.form = IDLE};
        return 0;
    }
    uint32_t refusal = read_prefixes(&reader, &prefixes);
    if (refusal || (refusal = next(&reader, &opcode)))
        return refusal;
    if (!is_opcode(opcode))
        return BAD_BYTE;
    if ((refusal = next(&reader, &modrm)))
        return refusal;
    unsigned mod = modrm >> 6, reg = modrm >> 3 & 7, rm = modrm & 7, high_reg = reg | (prefixes.rex & REX_R ? 8 : 0);
    bool known = find_form(opcode, mod, FAULT(REX_R_IN_WIDE) ? high_reg : reg, &instruction->form);
    if (FAULT(ADDRESS_SIZE_OF_REGISTERS) && prefixes.address_32 && mod == 3)
        return BAD_BYTE;
    if (!known && !FAULT(OPERAND_TEST_LATE))
        return BAD_BYTE;
    instruction->reg = FAULT(REX_R_IGNORED) && is_use(instruction->form) ? reg : high_reg;
    instruction->rm = rm | (prefixes.rex & REX_B ? 8 : 0);
    instruction->lock = prefixes.lock;
    instruction->address_32 = prefixes.address_32 && !(FAULT(REX_W_ADDRESS_SIZE) && prefixes.rex & REX_W);
    if (mod != 3 && (refusal = read_place(&reader, &prefixes, mod, rm, &instruction->place)))
        return refusal;
    instruction->length = (unsigned)reader.at;
    return known ? 0 : BAD_BYTE;
}

bool is_use(enum form form)
{
    return form < USE_FORMS;
}

bool is_encode(enum form form)
{
    return form == ENCODEKEY128 || form == ENCODEKEY256;
}

bool is_wide(enum form form)
{
    return form >= AESENCWIDE128KL && form <= AESDECWIDE256KL;
}

bool is_decryption(enum form form)
{
    return form == AESDEC128KL || form == AESDEC256KL || form == AESDECWIDE128KL || form == AESDECWIDE256KL;
}

size_t key_length(enum form form)
{
    return form == AESENC128KL || form == AESDEC128KL || form == AESENCWIDE128KL || form == AESDECWIDE128KL || form == ENCODEKEY128 ? 16 : 32;
}

size_t handle_length(enum form form)
{
    return HANDLE_HEAD + key_length(form);
}

/* bytes of the instruction that RIP-relative counts from RIP on */
static uint64_t relative_length(const struct instruction *instruction)
{
    if (FAULT(RIP_FROM_START))
        return 0;
    return instruction->length - (FAULT(ADDRESS_SIZE_NOT_RELATIVE) && instruction->address_32 ? 1 : 0);
}

/* modulo 2^64 */
static uint64_t address_sum(const struct instruction *instruction, const struct cpu *cpu)
{
    const struct place *place = &instruction->place;
    uint64_t address = (uint64_t)place->displacement;
    if (place->rip_relative)
        address += load64(cpu->rip) + relative_length(instruction);
    if (place->base != NO_REGISTER && FAULT(ADDRESS_SIZE_OF_BASE) && instruction->address_32)
        address += load32(cpu->registers[place->base]);
    else if (place->base != NO_REGISTER)
        address += load64(cpu->registers[place->base]);
    if (place->index != NO_REGISTER)
        address += load64(cpu->registers[place->index]) << place->scale;
    return address;
}

/* how many bits of the sum are the address: 67 leaves the lower 32, whatever REX.W is and for RIP-relative places too (SDM volume 2, 2.2.1.6) */
static unsigned address_bits(const struct instruction *instruction)
{
    if (!instruction->address_32)
        return FAULT(ADDRESS_32_ALWAYS) ? 32 : 64;
    if (FAULT(ADDRESS_SIZE_IGNORED) || FAULT(ADDRESS_SIZE_OF_BASE) || (FAULT(ADDRESS_SIZE_NOT_RIP) && instruction->place.rip_relative))
        return 64;
    return FAULT(ADDRESS_16) ? 16 : FAULT(ADDRESS_31) ? 31 : FAULT(ADDRESS_33) ? 33 : 32;
}

uint64_t effective_address(const struct instruction *instruction, const struct cpu *cpu)
{
    uint64_t dropped = 64 - address_bits(instruction);
    return address_sum(instruction, cpu) << dropped >> dropped;
}

/* RSP or RBP itself as base: not R12 or R13, which share their numbers, and not an index */
bool in_stack_segment(const struct place *place)
{
    if (FAULT(R12_R13_STACK) && (place->base == R12 || place->base == R13))
        return true;
    return place->base == RSP || (place->base == RBP && !FAULT(RBP_NOT_STACK));
}
