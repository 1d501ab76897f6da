#include "prefixes.h"

#include <stdio.h>
#include <stdlib.h>
#include <string.h>

#include "worked.h"

/* LOCK, address size, the F3 of all instructions, REX.W, and operand size, which none has */
static const uint8_t LETTERS[] = {0xF0, 0x67, 0xF3, 0x48, 0x66};

/* of up to five letters: 1 + 5 + 25 + 125 + 625 + 3,125 */
enum { LETTER_COUNT = sizeof LETTERS, MOST_LETTERS = 5, ORDERS = 3906 };

/* what may stand before 0F 38, and the answer */
static const struct {
    uint8_t bytes[4];
    size_t length;
    uint32_t number;
} taken[] = {
    {{0xF3}, 1, 0},        {{0xF3, 0x48}, 2, 0},        {{0x67, 0xF3}, 2, 0},        {{0x67, 0xF3, 0x48}, 3, 0},
    {{0xF0, 0xF3}, 2, 10}, {{0xF0, 0xF3, 0x48}, 3, 10}, {{0xF0, 0x67, 0xF3}, 3, 10}, {{0xF0, 0x67, 0xF3, 0x48}, 4, 10},
};

/* the handle is at 0, and memory ends with it */
static void prepare(struct trial *t, const uint8_t *string, size_t length)
{
    prepare_worked(t, STEP);
    memcpy(t->string_room, string, length);
    t->call.string.length = length;
    t->call.memory.length = sizeof ZERO_HANDLE;
}

static uint32_t number_of(const uint8_t *prefixes, size_t length)
{
    for (size_t i = 0; i < sizeof taken / sizeof *taken; i++)
        if (taken[i].length == length && memcmp(taken[i].bytes, prefixes, length) == 0)
            return taken[i].number;
    return 8;
}

/* Orders are numbered through from that of no letters: 1 to 5 are one letter, 6 to 30 two. */
static bool meets_order(struct trial *t, unsigned order)
{
    uint8_t string[MOST_LETTERS + 4];
    size_t length = 0;
    for (; order > 0; order = (order - 1) / LETTER_COUNT)
        string[length++] = LETTERS[(order - 1) % LETTER_COUNT];
    memcpy(string + length, (const uint8_t[]){0x0F, 0x38, 0xDC, 0x00}, 4);
    prepare(t, string, length + 4);
    return worked_answers(t, number_of(string, length), &ENCRYPTED);
}

static bool meets_orders(struct trial *t)
{
    bool good = true;
    for (unsigned order = 0; order < ORDERS; order++)
        good &= meets_order(t, order);
    return good;
}

/* Every part that a string can have, with LOCK or without: cut anywhere it ends too soon. Cut to nothing it is an idle step, which idle.c has. */
static bool meets_cuts(struct trial *t, bool lock)
{
    static const uint8_t longest[LONGEST] = {0xF0, 0x67, 0xF3, 0x48, 0x0F, 0x38, 0xDC, 0x84, 0x48, 0x00, 0x00, 0x00, 0x80}; /* [eax+ecx*2-0x80000000] */
    size_t whole = LONGEST - !lock;
    bool good = true;
    for (size_t length = 1; length <= whole; length++) {
        prepare(t, longest + !lock, length);
        store64(trial_cpu(t)->registers[RAX], UINT64_C(0x8000000080000000));
        store64(trial_cpu(t)->registers[RCX], UINT64_C(0x0123456780000000));
        good &= worked_answers(t, length < whole ? 9 : lock ? 10 : 0, &ENCRYPTED);
    }
    return good;
}

/* AESENC128KL without its F3 0F 38 DC: what follows, and where the handle at 0 is looked for with 67 and without */
static const struct {
    uint8_t operand[6];
    size_t length;
    uint64_t rax, rcx, rsp, rip;
    uint32_t with, without;
} addresses[] = {
    {{0x00}, 1, .rax = UINT64_C(0x100000000), .with = 0, .without = 14},                    /* [eax] */
    {{0x00}, 1, .rax = UINT64_C(0x180000000), .with = 14, .without = 14},                   /* bit 31 counts */
    {{0x00}, 1, .rax = UINT64_C(0x8000000000000000), .with = 0, .without = 12},             /* #GP without */
    {{0x00}, 1, .rax = UINT64_C(0x7FFFFFFFFFD1), .with = 14, .without = 12},                /* the last byte alone is not canonical */
    {{0x04, 0x24}, 2, .rsp = UINT64_C(0x8000000000000000), .with = 0, .without = 13},       /* [esp] */
    {{0x40, 0x10}, 2, .rax = 0xFFFFFFF0, .with = 0, .without = 14},                         /* [eax+0x10] carries out of bit 31 */
    {{0x40, 0x10}, 2, .rax = UINT64_C(0xFFFFFFFFFFFFFFF0), .with = 0, .without = 0},        /* and out of bit 63 */
    {{0x40, 0xF0}, 2, .rax = 0, .with = 14, .without = 14},                                 /* [eax-0x10] is 0xFFFFFFF0 */
    {{0x40, 0xF0}, 2, .rax = UINT64_C(0x100000010), .with = 0, .without = 14},              /* bit 32 of the base is dropped */
    {{0x40, 0x01}, 2, .rax = 0xFFFFFFFE, .with = 14, .without = 14},                        /* at 0xFFFFFFFF, the handle runs over 2^32 */
    {{0x04, 0x08}, 2, .rax = 0x80000000, .rcx = 0x80000000, .with = 0, .without = 14},      /* [eax+ecx] */
    {{0x04, 0x8D, 0, 0, 0, 0}, 6, .rcx = 0x40000000, .with = 0, .without = 14},             /* [ecx*4+0] */
    {{0x04, 0x25, 0, 0, 0, 0}, 6, .with = 0, .without = 0},                                 /* [0] */
    {{0x04, 0x25, 0xF0, 0xFF, 0xFF, 0xFF}, 6, .with = 14, .without = 14},                   /* [0xFFFFFFF0] */
    {{0x05, 0, 0, 0, 0}, 5, .rip = UINT64_C(0xABCDEF0FFFFFFFF6), .with = 0, .without = 12}, /* [eip+0], ten bytes with 67 */
    {{0x05, 0, 0, 0, 0x80}, 5, .rip = UINT64_C(0x17FFFFFF6), .with = 0, .without = 14},     /* [eip-0x80000000] */
    {{0x05, 0, 0, 0, 0}, 5, .rip = UINT64_C(0xFFFFFFFFFFFFFFF7), .with = 14, .without = 0}, /* nine bytes without 67; ends a byte behind memory */
};

static bool meets_address(struct trial *t, size_t row, bool with_67)
{
    uint8_t string[LONGEST] = {0x67, 0xF3, 0x0F, 0x38, 0xDC};
    memcpy(string + 5, addresses[row].operand, addresses[row].length);
    prepare(t, string + !with_67, 5 + addresses[row].length - !with_67);
    store64(trial_cpu(t)->registers[RAX], addresses[row].rax);
    store64(trial_cpu(t)->registers[RCX], addresses[row].rcx);
    store64(trial_cpu(t)->registers[RSP], addresses[row].rsp);
    store64(trial_cpu(t)->rip, addresses[row].rip);
    bool good = worked_answers(t, with_67 ? addresses[row].with : addresses[row].without, &ENCRYPTED);
    if (!good)
        printf("addresses, row %zu, %s 67\n", row, with_67 ? "with" : "without");
    return good;
}

static bool meets_addresses(struct trial *t)
{
    bool good = true;
    for (size_t row = 0; row < sizeof addresses / sizeof *addresses; row++)
        good &= meets_address(t, row, true) & meets_address(t, row, false);
    return good;
}

/* 67 changes neither of them, and counts in their length: the zero key's handle, and a zero IWKey over the zero one */
static bool meets_registers(struct trial *t)
{
    static const uint8_t encode[] = {0x67, 0xF3, 0x0F, 0x38, 0xFA, 0xC1}, load[] = {0x67, 0xF3, 0x0F, 0x38, 0xDC, 0xD1};
    const struct wanted handle = {.xmm = ZERO_HANDLE, .xmm_length = sizeof ZERO_HANDLE}, none = {0};
    prepare(t, encode, sizeof encode);
    bool good = worked_answers(t, 0, &handle);
    prepare(t, load, sizeof load);
    return good & worked_answers(t, 0, &none);
}

bool library_meets_prefixes(void)
{
    static struct trial trial;
    trial.memory_room = calloc(1, sizeof ZERO_HANDLE);
    if (!trial.memory_room)
        abort();
    memcpy(trial.memory_room, ZERO_HANDLE, sizeof ZERO_HANDLE);
    bool good = meets_orders(&trial);
    good &= meets_cuts(&trial, true);
    good &= meets_cuts(&trial, false);
    good &= meets_addresses(&trial);
    good &= meets_registers(&trial);
    free(trial.memory_room);
    return good;
}
