/* The scope's "Instruction strings": which instruction a string begins with, and where its memory operand is. */
#ifndef DECODE_H
#define DECODE_H

#include "records.h"

enum form {
    AESENC128KL,
    AESDEC128KL,
    AESENC256KL,
    AESDEC256KL,
    AESENCWIDE128KL,
    AESDECWIDE128KL,
    AESENCWIDE256KL,
    AESDECWIDE256KL,
    USE_FORMS,
    LOADIWKEY = USE_FORMS,
    ENCODEKEY128,
    ENCODEKEY256,
    FORMS,
    IDLE = FORMS /* an empty string: no instruction */
};

/* bytes of the longest instruction: F0, 67, F3, REX, 0F, 38, opcode, ModRM, SIB and a displacement of four */
enum { LONGEST = 13 };

/* base + index * 2^scale + displacement; base and index may be NO_REGISTER */
struct place {
    unsigned base, index, scale;
    int64_t displacement;
    bool rip_relative; /* counts from the next instruction; no base and no index then */
};

struct instruction {
    enum form form;
    bool lock;
    bool address_32; /* the address-size prefix, 67 */
    unsigned reg, rm;   /* registers: the block or SRC1 or destination; SRC2 or source */
    struct place place; /* of a use */
    unsigned length;
};

/* 0 and the instruction, IDLE where there is none, or refusal 8 or 9 */
uint32_t decode(struct buffer string, struct instruction *instruction);

bool is_use(enum form form);
bool is_encode(enum form form);
bool is_wide(enum form form);
bool is_decryption(enum form form);
/* of the key that an encode takes or a use needs: 16 or 32 */
size_t key_length(enum form form);
size_t handle_length(enum form form);

uint64_t effective_address(const struct instruction *instruction, const struct cpu *cpu);
bool in_stack_segment(const struct place *place);

#endif
