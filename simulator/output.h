/* Standard output, which may be full or closed. */
#ifndef OUTPUT_H
#define OUTPUT_H

#include <stdbool.h>

/* Whether all that was printed went out; otherwise it is said. */
bool output_flushed(void);

#endif
