/* Instruction strings and the registers that make their operands come out: the way forward, where decode.h is the way back. */
#ifndef ASSEMBLE_H
#define ASSEMBLE_H

#include "trial.h"

/* A use of a handle at target, in a random form of operand. */
void assemble_use(struct trial *t, enum form form, unsigned block, uint64_t target);
/* LOADIWKEY and ENCODEKEY */
void assemble_registers(struct trial *t, enum form form, unsigned reg, unsigned rm);

/* Sets registers, RIP or displacement so that the operand is at target, which is below 2^32 where the operand has 67; bits 63:32 of what is added up are then
 * any. If this operand cannot reach it, false, and nothing changes. */
bool aim(struct trial *t, uint64_t target);

/* F0 before the instruction and its 67; the address of a RIP-relative operand moves with it */
void put_lock(struct trial *t);

/* 67 before an instruction that has no prefix before F3, and away again; the operand has to be aimed once more */
void put_address_size(struct trial *t);
void drop_address_size(struct trial *t);

#endif
