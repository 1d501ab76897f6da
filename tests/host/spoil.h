/* Well-formed calls made to be refused, each for one reason of the scope's "Turned back". */
#ifndef SPOIL_H
#define SPOIL_H

#include "trial.h"

struct spoil {
    uint32_t number; /* the refusal that it means */
    const char *reason;
    bool (*apply)(struct trial *t); /* false, and nothing changed, where the call has no such operand */
};

extern const struct spoil spoils[];
extern const int spoil_count;

/* One reason, or two: then the one that is checked first is meant. Notes in the trial which. */
void spoil(struct trial *t);

#endif
