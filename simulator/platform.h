/* Statements about the machine as a whole. Each begins behind its keyword. */
#ifndef PLATFORM_H
#define PLATFORM_H

#include "simulator.h"

void run_power_on(struct simulator *s);
void run_taken(struct simulator *s);
void run_settle(struct simulator *s);
void run_sleep(struct simulator *s);
void run_reset(struct simulator *s);
void run_machine(struct simulator *s); /* lends other bytes as the machine */
void run_memory(struct simulator *s);

/* A field of the machine, 0 where the lent bytes are too few. */
uint8_t machine_byte(const struct simulator *s, size_t at);

#endif
