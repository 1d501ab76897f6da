#include "simulator.h"

#include <stdlib.h>
#include <string.h>

void simulator_init(struct simulator *s, const char *file, const struct options *options)
{
    static const uint8_t zero[KEYLOCKER_MACHINE_SIZE]; // a machine before power-on
    *s = (struct simulator){.line.file = file, .options = *options, .memory_len = KEYLOCKER_MEMORY_LIMIT, .touched = CPUS};
    bytes_assign(&s->machine, zero, sizeof zero);
    s->memory = allocate(NULL, MEMORY_ROOM);
    memset(s->memory, 0, MEMORY_ROOM);
    s->cpus = allocate(NULL, CPUS * sizeof *s->cpus);
    fresh_cpus(s);
    bytes_reserve(&s->left, 1); // no null pointers, so that no bytes are copied and compared like others
    bytes_reserve(&s->right, 1);
    bytes_reserve(&s->keyring, 1);
}

void simulator_free(struct simulator *s)
{
    names_free(&s->names);
    line_free(&s->line);
    bytes_free(&s->machine);
    bytes_free(&s->keyring);
    bytes_free(&s->left);
    bytes_free(&s->right);
    bytes_free(&s->hexadecimal);
    bytes_free(&s->result);
    bytes_free(&s->instruction);
    bytes_free(&s->answer);
    free(s->memory);
    free(s->cpus);
}

struct cpu *this_cpu(struct simulator *s)
{
    return &s->cpus[s->processor];
}

void fresh_cpus(struct simulator *s)
{
    memset(s->cpus, 0, s->touched * sizeof *s->cpus);
    for (unsigned n = 0; n < s->touched; n++) {
        s->cpus[n].len = KEYLOCKER_CPU_SIZE;
        s->cpus[n].record[KEYLOCKER_CPU_RFLAGS] = 2;
        s->cpus[n].record[KEYLOCKER_CPU_CONTROL] = KEYLOCKER_CONTROL_CR4_KL | KEYLOCKER_CONTROL_CR4_OSFXSR;
    }
    s->touched = 0;
}

bool wrote_zf(const struct last *last)
{
    return last->answer == KEYLOCKER_DONE &&
           (last->call == CALL_LOAD || last->call == CALL_ENCODE || last->call == CALL_USE || last->call == CALL_UNKNOWN_STEP || last->call == CALL_CTR);
}
