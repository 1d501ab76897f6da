/* The instruction that a program stopped at, as the processor reads it. The library takes one order of prefixes and no segment overrides; here they stand as
 * assemblers and compilers put them. */
#ifndef FETCH_H
#define FETCH_H

#include "decode.h"

enum { STRING_ROOM = 16, LONGEST_INSTRUCTION = 15 };

struct fetched {
    struct instruction instruction;
    uint8_t string[STRING_ROOM]; /* F0 or nothing, 67 or nothing, F3, and the program's bytes from there on */
    size_t len;
    size_t dropped; /* prefixes of the program's that are not in it */
    uint8_t segment; /* 64 (FS), 65 (GS), or 0 */
};

/* Whether one of the eleven begins there. */
bool fetch(uint64_t address, struct fetched *f);

/* How long the program's own is. */
size_t fetched_len(const struct fetched *f);

/* The address of the handle, by a record whose RIP is that of the instruction. */
uint64_t fetched_address(const struct fetched *f, const uint8_t *record);

/* Whether an address that is not canonical is #SS and not #GP. */
bool in_stack_segment(const struct fetched *f);

/* The string with the handle's place replaced by the absolute address 0; all else of it is the program's. */
size_t rewrite_operand(const struct fetched *f, uint8_t string[STRING_ROOM]);

#endif
