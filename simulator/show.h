/* The machine, its processors and the keyring in words. */
#ifndef SHOW_H
#define SHOW_H

#include "simulator.h"

/* Behind "show". */
void run_show(struct simulator *s);

/* The same behind "cpu N": bytes, a register, or all registers of the processor. */
void run_cpu_show(struct simulator *s);

#endif
