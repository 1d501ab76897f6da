/* The records of the scope ("Records"), as bytes and in the order in which they are lent, and the calls with their arguments. */
#ifndef RECORDS_H
#define RECORDS_H

#include <stdbool.h>
#include <stddef.h>
#include <stdint.h>

enum { PROCESSORS = 16, MEMORY_LIMIT = 1048576, RANDOM_SIZE = 48, AAD_SIZE = 16, TAG_SIZE = 16, HANDLE_HEAD = AAD_SIZE + TAG_SIZE, HANDLE_MOST = 64 };
enum { COUNTER_SIZE = 16, BUFFER_LIMIT = 65536 };

/* feature byte */
enum { F_KL = 1, F_FIRMWARE = 2, F_WIDE = 4, F_BACKUP = 8, F_NO_BACKUP = 16, F_RANDOM = 32, F_ALL = 63 };

/* control bits of the CPU record */
enum { C_CR4_KL = 1, C_OSFXSR = 2, C_EM = 4, C_TS = 8, C_ALL = 15 };

/* RFLAGS */
enum { CF = 1 << 0, PF = 1 << 2, AF = 1 << 4, ZF = 1 << 6, SF = 1 << 7, DF = 1 << 10, OF = 1 << 11 };

enum { RAX, RCX, RDX, RBX, RSP, RBP, RSI, RDI, R8, R9, R10, R11, R12, R13, R14, R15, NO_REGISTER };

struct iwkey {
    uint8_t integrity[16];
    uint8_t encryption[32];
    uint8_t source;
    uint8_t no_backup;
};

struct processor {
    struct iwkey iwkey;
    uint8_t copy_status;
};

struct platform_key {
    uint8_t present;
    struct iwkey iwkey;
};

struct machine {
    uint8_t count;
    uint8_t features;
    struct processor processors[PROCESSORS];
    struct platform_key backup, store;
    uint8_t pending, valid, error, consumed;
};

struct cpu {
    uint8_t xmm[16][16];
    uint8_t registers[16][8];
    uint8_t rip[8];
    uint8_t rflags[8];
    uint8_t cpl;
    uint8_t control;
    uint8_t zeros[6];
};

_Static_assert(sizeof(struct machine) == 924, "the machine record is lent as 924 bytes");
_Static_assert(sizeof(struct cpu) == 408, "the CPU record has 408 bytes");

struct buffer {
    uint8_t *bytes;
    size_t length;
};

enum call_kind { POWER_ON, STEP, READ, WRITE, SETTLE, SLEEP, RESET, TAKEN, CPUID, CTR, CALL_KINDS };

/* backup registers */
enum { COPY_STATUS = 0x990, BACKUP_STATUS = 0x991, COPY_OUT = 0xD91, COPY_IN = 0xD92 };

/* A call with all its arguments but the machine. Each kind reads those that it has. */
struct call {
    enum call_kind kind;
    uint8_t count, features; /* power-on */
    uint8_t processor;       /* step, read, write, ctr */
    uint8_t cpl;             /* read, write */
    uint32_t address;
    uint64_t value;                       /* write */
    uint8_t code;                         /* settle, sleep */
    uint32_t leaf, subleaf;               /* cpuid */
    struct buffer cpu;                    /* step, cpuid, ctr */
    struct buffer memory, random, string; /* step */
    struct buffer handle, counter, data;  /* ctr; the data is what it XORs */
};

/* a step without a string, and so without an instruction */
static inline bool is_idle(const struct call *call)
{
    return call->kind == STEP && call->string.length == 0;
}

/* what CPUID answers with, in the order of its places in C */
enum { EAX, EBX, ECX, EDX, LEAF_REGISTERS };

/* the numbers that a call may answer with besides that of its refusal: a read's, and CPUID's */
struct results {
    uint64_t *value;
    uint32_t *leaf[LEAF_REGISTERS];
};

static inline uint64_t load64(const uint8_t bytes[8])
{
    uint64_t value = 0;
    for (int i = 7; i >= 0; i--)
        value = value << 8 | bytes[i];
    return value;
}

static inline void store64(uint8_t bytes[8], uint64_t value)
{
    for (int i = 0; i < 8; i++)
        bytes[i] = (uint8_t)(value >> 8 * i);
}

static inline uint32_t load32(const uint8_t bytes[4])
{
    return (uint32_t)bytes[0] | (uint32_t)bytes[1] << 8 | (uint32_t)bytes[2] << 16 | (uint32_t)bytes[3] << 24;
}

static inline void store32(uint8_t bytes[4], uint32_t value)
{
    for (int i = 0; i < 4; i++)
        bytes[i] = (uint8_t)(value >> 8 * i);
}

#endif
