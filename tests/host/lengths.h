/* Buffers at the limits of their lengths, and the answers that the scope gives. */
#ifndef LENGTHS_H
#define LENGTHS_H

#include <stdbool.h>

/* says on stdout what differs */
bool library_meets_lengths(void);

#endif
