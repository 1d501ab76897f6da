/* The kinds of calls, each with what it is lent and what it must get. */
#ifndef KINDS_H
#define KINDS_H

#include "guard.h"

/* all that a call reads and writes, and its answer */
struct lent {
    uint8_t machine[KEYLOCKER_MACHINE_SIZE], cpu[KEYLOCKER_CPU_SIZE];
    size_t machine_length;
    uint8_t memory[2 * KEYLOCKER_HANDLE_256_SIZE]; /* a handle for either size of key, each at its half's start */
    uint8_t keys[2][32];                           /* the keys of these handles; no call is lent them */
    uint8_t random[KEYLOCKER_RANDOM_SIZE], string[5];
    size_t random_length, string_length;
    uint64_t value;
    uint32_t leaf[4]; /* CPUID's EAX, EBX, ECX, EDX */
    uint8_t keyring[KEYLOCKER_KEYRING_LIMIT], label[KEYLOCKER_LABEL_SIZE];
    uint8_t found_kind, found[KEYLOCKER_HANDLE_256_SIZE];
    uint8_t counter[KEYLOCKER_COUNTER_SIZE], buffer[KEYLOCKER_BUFFER_LIMIT];
    size_t handle_length, buffer_length; /* of a counter call */
    uint32_t answer;
};

enum call { POWER_ON, STEP, CTR, CPUID, READ, WRITE, TAKEN, SETTLE, SLEEP, RESET, LOOKUP, ADD };

struct kind {
    const char *name;
    enum call call;
    uint32_t number; /* count, register, leaf, code, label or bytes in the buffer; of a step opcode and ModRM behind F3 0F 38 */
    void (*spoil)(struct lent *lent); /* or none */
    uint32_t answer;
    bool fails;  /* ZF after a step or counter call that is done */
    bool writes; /* the machine differs afterwards, or the keyring, or the buffer */
};

extern const struct kind kinds[];
extern const size_t kind_count;

/* What the call is lent before. False if a call that it takes to get there had another answer than it should. */
bool prepare(const struct kind *kind, struct lent *lent);

void make_call(const struct kind *kind, const struct entries *entries, struct lent *lent);

/* The key that the call encodes or opens, or would if nothing stopped it, and how many bytes it has: 0 where it has no key. */
size_t key_of(const struct kind *kind, const struct lent *before, const uint8_t **key);
bool is_loadiwkey(const struct kind *kind);
bool is_idle(const struct kind *kind, const struct lent *lent);
/* the IWKey of the processor that the calls are made on */
const uint8_t *processor_iwkey(const struct lent *lent);

/* NULL, or what is not as the kind says */
const char *not_as_meant(const struct kind *kind, const struct lent *before, const struct lent *after);

#endif
