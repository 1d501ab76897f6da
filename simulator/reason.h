/* Why a handle did not open. */
#ifndef REASON_H
#define REASON_H

#include "simulator.h"

/* Into the answer, for the CPL of the statement: what the AAD has against a use with a key of this size, or that the tag does not match. The library tells
 * neither; this looks at the handle. */
void add_reason(struct simulator *s, const uint8_t *handle, size_t key_size, bool encrypts);

/* The same for the last call, a use that was done and left ZF 1. */
void add_use_reason(struct simulator *s);

#endif
