/* Accesses to pages that cannot be touched that way, caught instead of ending the program. */
#ifndef CATCH_H
#define CATCH_H

#include <stdbool.h>
#include <stddef.h>
#include <stdint.h>

/* The pages that accesses are caught in: one range for the whole program. */
bool catch_start(const uint8_t *pages, size_t length);

/* NULL, or the byte in these pages at which make was left in the middle. The library keeps nothing between calls, so that a call can be left like this. */
const uint8_t *caught(void (*make)(void *argument), void *argument);

#endif
