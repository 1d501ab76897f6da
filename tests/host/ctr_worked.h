/* Counter calls worked out by hand: under all features, control bits and CPLs, over all short lengths and the longest, and turned back in order. */
#ifndef CTR_WORKED_H
#define CTR_WORKED_H

#include <stdbool.h>

/* says on stdout what differs */
bool library_meets_ctr(void);

#endif
