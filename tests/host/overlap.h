/* Buffers that are only read, with bytes in common. */
#ifndef OVERLAP_H
#define OVERLAP_H

#include <stdbool.h>

/* says on stdout which call has another result */
bool library_meets_overlap(void);

#endif
