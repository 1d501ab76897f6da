/* The state of a run: one emulated machine, the CPU records of its processors, guest memory, a keyring, and the names of the trace. */
#ifndef SIMULATOR_H
#define SIMULATOR_H

#include <stdbool.h>
#include <stddef.h>
#include <stdint.h>

#include "bytes.h"
#include "call.h"
#include "keylocker.h"
#include "line.h"
#include "names.h"

/* A processor number is one byte. Those past the count have a record too, so that a trace can see them refused. */
#define CPUS 256

/* Longer than the CPU record, so that a trace can lend one of a wrong length. */
#define RECORD_ROOM 512

/* One byte more than the library takes, for the same reason. */
#define MEMORY_ROOM (KEYLOCKER_MEMORY_LIMIT + 1)

/* Where the mnemonics put the handle that they use: the last bytes of guest memory. */
#define HANDLE_PLACE (KEYLOCKER_MEMORY_LIMIT - KEYLOCKER_HANDLE_256_SIZE)

/* The longest byte string. */
#define BYTES_LIMIT ((size_t)2 * MEMORY_ROOM)

struct cpu {
    uint8_t record[RECORD_ROOM];
    size_t len; /* of the record that is lent */
};

/* The registers that CPUID writes, in their order there. */
enum { EAX, EBX, ECX, EDX, CPUID_REGISTERS };

/* What the last call of the library answered, for expect and for JSON. */
struct last {
    enum call call;
    size_t line;
    int processor; /* -1 where the call has none */
    const struct mnemonic *mnemonic; /* of a step, or none */
    uint64_t handle; /* the address of the handle of a use */
    uint32_t answer;
    unsigned zf;
    uint64_t value;
    uint32_t cpuid[CPUID_REGISTERS];
    uint8_t kind;
    const struct name *name; /* that the result was given, or none */
    bool has_result;
    bool expected; /* an expectation speaks of the refusal, or of ZF 1 */
};

struct counts {
    size_t calls, refused, expects, unmet, unexpected, bad;
    size_t first_unmet, first_unexpected; /* their lines */
};

struct options {
    bool quiet, strict, json;
};

struct simulator {
    struct options options;
    struct line line;
    struct names names;
    struct bytes machine; /* KEYLOCKER_MACHINE_SIZE bytes unless the trace lends others */
    struct bytes keyring; /* of no bytes until the trace lends some */
    struct cpu *cpus;
    unsigned touched; /* processors from here on have fresh records */
    uint8_t *memory;
    size_t memory_len;
    int processor; /* of the statement, or -1 */
    int cpl;       /* given for the statement alone, or -1 */
    struct bytes left, right, hexadecimal; /* byte strings of the statement */
    struct last last;
    struct bytes result, instruction, answer; /* of the last call: bytes, and two texts */
    bool called; /* the statement made a call */
    struct counts counts;
    bool printed, said; /* anything so far; a text by say just before */
};

void simulator_init(struct simulator *s, const char *file, const struct options *options);
void simulator_free(struct simulator *s);

/* The processor that the statement is for. */
struct cpu *this_cpu(struct simulator *s);

/* Whether the call left ZF to be looked at. */
bool wrote_zf(const struct last *last);

/* The records as at power-on: CPL 0, CR4.KL and CR4.OSFXSR set, the rest zero but bit 1 of RFLAGS, which is always 1. */
void fresh_cpus(struct simulator *s);

#endif
