/* How often what occurred; a long run in which something never did has tested less than it claims. */
#ifndef COVERAGE_H
#define COVERAGE_H

#include "compare.h"
#include "history.h"

void cover_call(const struct trial *t, const struct run *library);
/* a call on a machine that calls alone have written since its power-on */
void cover_listed(const struct trial *t, const struct run *library);
/* a use, or a counter call, whose handle an earlier encode of the list gave, under a key of the same name */
void cover_judged(const struct history *history, const struct trial *t, const struct judged *judged);

/* the exceptions that CPUID foretells */
#define PROBED_EXCEPTIONS(X)                   \
    X(UD_LOAD, "#UD of LOADIWKEY")             \
    X(UD_ENCODE, "#UD of encodes")             \
    X(UD_USE, "#UD of uses of one block")      \
    X(UD_WIDE, "#UD of wide uses")             \
    X(UD_CTR, "#UD of counter calls")          \
    X(GP_LOAD, "#GP of LOADIWKEY")             \
    X(GP_ENCODE, "#GP of encodes")             \
    X(GP_REGISTER, "#GP of backup registers")

enum probed {
#define PROBED(name, text) PROBED_##name,
    PROBED_EXCEPTIONS(PROBED)
#undef PROBED
    PROBED_COUNT
};

void cover_probe(enum probed probed, bool foretold);

/* what holds of counter calls on the library alone */
#define CTR_LAWS(X)                                      \
    X(WITHOUT_WIDE, "the same without the wide bit")     \
    X(WITH_WIDE, "the same with the wide bit")           \
    X(SINGLY, "the single form, block by block")         \
    X(TWICE, "twice gives the data back")                \
    X(IN_PARTS, "two parts, the counter moved on")

enum ctr_law {
#define LAW(name, text) LAW_##name,
    CTR_LAWS(LAW)
#undef LAW
    LAW_COUNT
};

/* by the handle's size */
void cover_law(enum ctr_law law, bool longer);

void print_coverage(void);
/* says on stdout what did not occur */
bool coverage_is_full(void);

#endif
