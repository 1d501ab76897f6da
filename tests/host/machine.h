/* The emulated machine: the scope's "What each instruction does" and "Backup, sleep, reset". */
#ifndef MACHINE_H
#define MACHINE_H

#include "decode.h"
#include "records.h"

/* The whole call, over a lent machine: the number of its refusal, or 0 with the machine, the CPU record, (for a read or CPUID) the results
 * and (for a counter call) the data advanced. */
uint32_t model_call(struct buffer machine, struct call *call, const struct results *results);

/* The IWKey that LOADIWKEY makes of its registers and random data, neither refused nor "not ready". */
struct iwkey loaded_iwkey(const struct cpu *cpu, const struct instruction *instruction, const uint8_t *random);
/* LOADIWKEY asks for random data and there is none */
bool not_ready(const struct cpu *cpu, struct buffer random);

#endif
