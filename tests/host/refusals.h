/* The scope's "Turned back, in checking order". */
#ifndef REFUSALS_H
#define REFUSALS_H

#include "decode.h"
#include "records.h"

enum {
    DONE,
    R1_MACHINE,
    R2_CODE,
    R3_PROCESSOR,
    R4_CPU_LENGTH,
    R5_CPU,
    R6_MEMORY,
    R7_RANDOM,
    R8_BYTE,
    R9_STRING_ENDS,
    R10_UD,
    R11_NM,
    R12_GP,
    R13_SS,
    R14_PF,
    R18_SIZE = 18, /* 15 to 17 are the keyring's */
    NUMBERS
};

/* all of them in the order in which they are checked, which is not that of the numbers */
enum { REFUSALS = 15 };
extern const uint32_t checking_order[REFUSALS];

/* refusal 1, for power-on and for the record lent to every other call */
bool power_on_refused(size_t machine_length, uint8_t count, uint8_t features);
bool machine_refused(struct buffer machine);

/* All but refusal 1: count, features and the call's arguments decide. A step that is not refused gets its instruction. */
uint32_t call_refusal(uint8_t count, uint8_t features, const struct call *call, struct instruction *instruction);
/* the use that a counter call, of a handle of one of the two sizes, is judged as */
enum form ctr_form(const struct call *call);
/* 12 to 14 of a use alone */
uint32_t handle_refusal(const struct cpu *cpu, size_t memory_length, const struct instruction *instruction);

#endif
