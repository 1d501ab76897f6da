/* Instruction strings: which instruction it is, its operands as text, and where its handle is. The library decodes for itself, and the simulator only tells
 * people what is found here; keylocker-run reads a program's handle by it. It is tested against the library, and proved nowhere. */
#ifndef DECODE_H
#define DECODE_H

#include "mnemonic.h"

/* Base and index are register numbers; these stand for others. */
enum { NO_REGISTER = -1, INSTRUCTION_POINTER = 16 };

/* The longest text has base, index, scale and displacement. */
enum { INSTRUCTION_TEXT = 80 };

struct instruction {
    const struct mnemonic *mnemonic;
    bool lock, address_32; /* F0; 67 */
    unsigned reg, rm;      /* registers of ModRM, with REX */
    int base, index;       /* of an operand in memory */
    unsigned scale;
    int32_t displacement;
    size_t len;
};

/* Whether the string begins with an instruction. */
bool decode(const uint8_t *string, size_t len, struct instruction *instruction);

/* As GNU objdump's Intel syntax has it, but for the size of the operand in memory. */
void instruction_text(const struct instruction *instruction, char text[INSTRUCTION_TEXT]);

/* The address of the handle, of the instruction at RIP. */
uint64_t handle_address(const struct instruction *instruction, const uint8_t *record);

#endif
