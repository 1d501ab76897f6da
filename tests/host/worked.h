/* Calls worked out by hand: one processor with a zero IWKey, and the handle that Intel's specification prints. */
#ifndef WORKED_H
#define WORKED_H

#include "compare.h"

/* 343965-001US, chapter 6: the handle of a zero key under a zero IWKey */
extern const uint8_t ZERO_HANDLE[48];

/* what a call that is done leaves, where it is named: the machine, the bytes from XMM0 on, CPUID's numbers, or a counter call's data */
struct wanted {
    const struct machine *machine;
    const uint8_t *xmm;
    size_t xmm_length;
    const uint32_t *leaf;
    const uint8_t *data;
};

/* of a use that encrypts the zero block in XMM0 */
extern const struct wanted ENCRYPTED;
extern const uint8_t ZERO_ENCRYPTED[16];

/* The string is aesenc128kl xmm0, [rax]. The trial's memory and data are the caller's, who says how much of them is lent. A counter call has the handle
 * and a counter block of zeros. */
void prepare_worked(struct trial *t, enum call_kind kind);
/* the lengths of machine and CPU record, the processor number and the record's CPL */
void lend_worked(struct trial *t, size_t machine, uint8_t processor, size_t cpu, uint8_t cpl);

/* Library and model give this number and, where it is 0, what is wanted; RIP then stands behind all of the string. Says on stdout what differs. */
bool worked_answers(struct trial *t, uint32_t number, const struct wanted *wanted);

#endif
