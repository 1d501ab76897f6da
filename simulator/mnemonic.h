/* The eleven instructions: their names, and what opcode and ModRM tell them apart. */
#ifndef MNEMONIC_H
#define MNEMONIC_H

#include <stdbool.h>
#include <stddef.h>
#include <stdint.h>

#include "call.h"

struct mnemonic {
    const char *name;
    enum call call;
    uint8_t opcode;
    int reg;     /* the reg field of ModRM that belongs to the opcode, or -1 */
    bool memory; /* the handle's place is an operand */
    size_t key_size;
    bool wide, encrypts;
};

enum { MNEMONICS = 11 };
extern const struct mnemonic mnemonics[MNEMONICS];

/* Words for ENCODEKEY's restrictions. */
struct restriction {
    const char *name;
    uint32_t bit;
};

enum { RESTRICTIONS = 3 };
extern const struct restriction restrictions[RESTRICTIONS];

/* None where no instruction has them. */
const struct mnemonic *mnemonic_of(uint8_t opcode, unsigned reg, bool memory);

#endif
