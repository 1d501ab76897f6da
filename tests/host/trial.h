/* What the runner keeps between calls, and one call that it is about to make. */
#ifndef TRIAL_H
#define TRIAL_H

#include "decode.h"
#include "history.h"
#include "records.h"

enum { MACHINES = 4, KNOWN_HANDLES = 128, ANY_NUMBER = 1000, MEMORY_ROOM = MEMORY_LIMIT + 4096, STRING_ROOM = 4096, BUFFER_ROOM = 2048 };
enum { DATA_ROOM = BUFFER_LIMIT + 64, COUNTER_ROOM = 64, LENT_HANDLE_ROOM = 256 };

/* Machines that live side by side. Of only_calls, the record was written by calls alone since its power-on: its history is known. */
struct emulated {
    struct machine machine;
    bool only_calls;
    uint64_t calls; /* of the list since that power-on */
    struct history history;
};

/* handles that encodes gave, and the IWKey that made them */
struct known_handle {
    uint8_t bytes[HANDLE_MOST];
    size_t length;
    struct iwkey iwkey;
};

struct world {
    struct emulated machines[MACHINES];
    struct known_handle known[KNOWN_HANDLES];
    size_t known_count;
};

/* where the handle of a use or of a counter call comes from */
#define HANDLE_ORIGINS(X)                                                \
    X(FITTING, "of an encode under the processor's IWKey")               \
    X(UNRELATED, "of an encode, perhaps under another IWKey")            \
    X(FLIPPED, "with one byte changed")                                  \
    X(TOP_BIT, "with the top bit of the tag flipped")                    \
    X(TAG_ONLY, "whose own tag differs in one bit alone")                \
    X(RESERVED_BIT, "authentic, with a reserved AAD bit")                \
    X(WRONG_TYPE, "authentic, with a key type of another size or none")  \
    X(COUNTER_WRAPS, "authentic, with a counter that wraps")             \
    X(JUNK, "of random bytes")

enum handle_origin {
#define ORIGIN(name, text) HANDLE_##name,
    HANDLE_ORIGINS(ORIGIN)
#undef ORIGIN
    ORIGINS
};

#define OPERAND_SHAPES(X)                    \
    X(BASE, "base")                          \
    X(BASE_8, "base, disp8")                 \
    X(BASE_32, "base, disp32")               \
    X(SIB_BASE, "SIB base")                  \
    X(SIB_BASE_INDEX, "SIB base and index")  \
    X(SIB_BASE_TWICE, "SIB base as index")   \
    X(SIB_INDEX, "SIB index without base")   \
    X(SIB_NEITHER, "SIB displacement alone") \
    X(RIP_RELATIVE, "RIP-relative")

enum operand_shape {
#define SHAPE(name, text) SHAPE_##name,
    OPERAND_SHAPES(SHAPE)
#undef SHAPE
    SHAPES
};

/* a memory operand as the assembler wrote it, so that it can be aimed at another address */
struct operand {
    enum operand_shape shape;
    bool address_32; /* 67 stands before the instruction, which may also be one of registers alone */
    unsigned base, index, scale;
    size_t displacement_bytes, displacement_at, length;
};

struct trial {
    unsigned machine_number;
    bool carried; /* the record afterwards is the machine's; otherwise the call is made on a copy */
    bool made;    /* the record was made by hand and not by calls */
    bool null_if_empty; /* buffers of no bytes are null pointers */
    struct buffer machine;
    struct call call;
    uint32_t leaf_before[LEAF_REGISTERS]; /* what the places lent for CPUID's numbers hold */
    uint32_t meant; /* the number that the generator means, or ANY_NUMBER */
    int spoils[2];  /* places in the table of spoils, -1 for none */
    bool meant_string; /* the string is that of form, as assembled */
    enum form form;
    struct operand operand;
    uint64_t target; /* the operand's address */
    enum handle_origin origin;
    uint8_t machine_room[BUFFER_ROOM], cpu_room[BUFFER_ROOM], random_room[BUFFER_ROOM], string_room[STRING_ROOM];
    uint8_t handle_room[LENT_HANDLE_ROOM], counter_room[COUNTER_ROOM];
    uint8_t *memory_room, *data_room;
};

static inline struct machine *trial_machine(struct trial *t)
{
    return (struct machine *)t->machine_room;
}

static inline struct cpu *trial_cpu(struct trial *t)
{
    return (struct cpu *)t->cpu_room;
}

#endif
