/* The IWKey of a new machine. */
#ifndef IWKEY_H
#define IWKEY_H

#include <stdint.h>

#include "keylocker.h"

/* Integrity key and encryption key. */
enum { IWKEY_BYTES = KEYLOCKER_IWKEY_SOURCE };

void iwkey_random(uint8_t iwkey[IWKEY_BYTES]);
void iwkey_read(const char *path, uint8_t iwkey[IWKEY_BYTES]);

#endif
