/* Counter calls on the library alone, each again in another way that must come to the same. */
#ifndef CTR_LAWS_H
#define CTR_LAWS_H

#include "compare.h"

/* NULL, or what is not alike; the call of the trial is what the run made of it */
const char *ctr_law_differs(const struct trial *t, const struct run *library);

#endif
