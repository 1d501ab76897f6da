/* The scope's "The plain history machine": names instead of keys. It is fed power-on's arguments and the calls
 * of its lists, CPUID not being one, without the machine. */
#ifndef HISTORY_H
#define HISTORY_H

#include "decode.h"
#include "records.h"

#define NO_NAME UINT64_MAX

/* name i and the IWKey that call i's LOADIWKEY makes */
struct named_iwkey {
    uint64_t name;
    struct iwkey iwkey;
};

/* what an encode of the list was given, under which name, and the handle that it gave */
struct encode {
    uint64_t name, call;
    uint8_t processor, source;
    size_t key_length;
    uint8_t key[32], handle[HANDLE_MOST];
};

struct history {
    uint8_t count, features;
    uint64_t calls; /* so far, refused ones among them */
    uint64_t processors[PROCESSORS], backup, store;
    bool pending;
    uint64_t last_sleep; /* the call that was the last sleep or reset */
    struct named_iwkey *named;
    size_t named_count, named_room;
    struct encode *encodes;
    uint64_t *tags; /* the first half of each encode's tag, for a quick search */
    size_t encode_count, encode_room;
};

/* a list starts here; what an earlier one kept is let go */
void history_power_on(struct history *history, uint8_t count, uint8_t features);
void history_free(struct history *history);

/* The next call of the list: its refusal by its arguments alone, or 0 and the names have moved. Reads, taken, idle steps and counter calls
 * move none. */
uint32_t history_call(struct history *history, const struct call *call, struct instruction *instruction);

/* After an encode that was not refused: the CPU record before and after. */
void history_encoded(struct history *history, const struct call *call, const struct instruction *instruction, const struct cpu *after);

/* Demand 3's keys: NULL if the record holds exactly the keys of the names, otherwise what differs. */
const char *history_keys_differ(const struct history *history, const struct machine *machine);

/* how a use of an encoded handle was allowed or forbidden */
struct judged {
    const struct encode *encode; /* NULL if the use is none of a handle encoded under a key of the same name */
    bool size, privilege, direction;
};

/* Demand 3's uses: NULL if the use did as its encode says, otherwise what differs. The use was not refused. */
const char *history_use_differs(const struct history *history, const struct call *call, const struct instruction *instruction,
                                const struct cpu *after, struct judged *judged);

/* The same of a counter call, which is judged as an encrypting use: what it left in the CPU record and in the data. */
const char *history_ctr_differs(const struct history *history, const struct call *call, const struct call *after, struct judged *judged);

#endif
