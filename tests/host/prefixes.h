/* Prefixes in every order, the longest strings cut at each length, and addresses behind 67, with the answers that the scope gives. */
#ifndef PREFIXES_H
#define PREFIXES_H

#include <stdbool.h>

/* says on stdout what differs */
bool library_meets_prefixes(void);

#endif
