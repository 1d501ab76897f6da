/* The eleven instructions by mnemonic: their operands are put into registers and memory, and their strings assembled. */
#ifndef INSTRUCTIONS_H
#define INSTRUCTIONS_H

#include "mnemonic.h"
#include "simulator.h"

/* None for other words. */
const struct mnemonic *mnemonic_named(struct word word);

/* Behind the mnemonic. */
void run_instruction(struct simulator *s, const struct mnemonic *m);

#endif
