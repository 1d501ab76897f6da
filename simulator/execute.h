/* Calls that work on the CPU record of the statement's processor: steps, and counter calls. */
#ifndef EXECUTE_H
#define EXECUTE_H

#include "simulator.h"

/* The CPL of the statement, or the record's. */
uint8_t cpl_of(struct simulator *s);

/* Executes a string at that CPL; whether it was done. */
bool execute(struct simulator *s, const uint8_t *string, size_t len, const struct bytes *random);

/* The same for a counter call, in place. */
struct counted {
    const uint8_t *handle, *counter;
    size_t handle_len, counter_len;
    struct bytes *buffer;
};
bool count(struct simulator *s, const struct counted *c);

/* The instruction that the string begins with, if one does, as a line of the answer. JSON has it beside that. */
void print_instruction(struct simulator *s, const uint8_t *string, size_t len);

#endif
