/* One call on the library and on the model, and what must be alike. */
#ifndef COMPARE_H
#define COMPARE_H

#include "trial.h"

/* a call's buffers and results; the library's are lent, by lend.h */
struct run {
    struct buffer machine;
    struct call call;
    struct results results;
    uint32_t number;
    const char *touched; /* what the library touched that it may not, or NULL */
};

/* no call's answer: that of one that was left in the middle */
enum { UNANSWERED = 9999 };

/* what the place lent for a read's value holds before */
extern const uint64_t VALUE_BEFORE;

void run_library(const struct trial *t, struct run *run);
void run_model(const struct trial *t, struct run *run);
void run_free(struct run *run);

/* NULL if library and model agree and a refused call left everything; otherwise what differs. */
const char *difference(const struct trial *t, const struct run *library, const struct run *model);

/* all that is needed to look into a difference */
void report(const struct trial *t, const struct run *library, const struct run *model);

bool same(struct buffer a, struct buffer b);

/* Faults around the library's call: a byte behind the buffer or before it is read, or its last byte written with what it holds. */
void misuse_lent(struct buffer lent, bool behind, bool before, bool rewritten);

/* parts of a report: bytes in hexadecimal, many of them cut; where two sides differ that begin with the same bytes, if they do */
void print_buffer(const char *name, struct buffer buffer);
void print_first_difference(const char *name, struct buffer before, struct buffer library, struct buffer model);

extern const char *const call_names[CALL_KINDS];

#endif
