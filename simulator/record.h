/* The fields of a CPU record, by name. */
#ifndef RECORD_H
#define RECORD_H

#include "simulator.h"

struct field {
    const char *name;
    size_t at, size; /* a little-endian number of 8 bytes or 1 */
};

/* XMM0 to XMM15 as 0 to 15; -1 for other words. */
int xmm_named(struct word word);

/* A general register, rip, rflags, cpl or control; none for other words. */
const struct field *register_named(struct word word);
const struct field *register_numbered(size_t n); /* none past the last */

uint8_t *xmm_of(struct cpu *cpu, unsigned n);
uint64_t get_field(const struct cpu *cpu, const struct field *field);
void set_field(struct cpu *cpu, const struct field *field, uint64_t value);

#endif
