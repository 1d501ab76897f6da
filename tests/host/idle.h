/* Idle steps under all features, control bits and CPLs, the refusals that they meet, and prefixes alone, which are no idle steps. */
#ifndef IDLE_H
#define IDLE_H

#include <stdbool.h>

/* says on stdout what differs */
bool library_meets_idle(void);

#endif
