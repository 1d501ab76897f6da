/* The exceptions that 343965-001US states through CPUID bits, worked out from the library's own CPUID. */
#ifndef PROBE_H
#define PROBE_H

#include "compare.h"

/* After a step, a read or a write: NULL if the library's exceptions are those that its CPUID foretold, otherwise what differs. */
const char *probe_differs(const struct trial *t, const struct run *library);

#endif
