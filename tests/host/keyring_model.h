/* The keyring of the header and its two calls, by lists of records. */
#ifndef KEYRING_MODEL_H
#define KEYRING_MODEL_H

#include "records.h"

enum { RING_RECORD = 80, RING_RECORDS = 819, RING_LIMIT = RING_RECORD * RING_RECORDS, RING_HEADS = 16, RING_TAIL = 2 * RING_HEADS };

/* where a record has what */
enum { RING_NEXT = 0, RING_KIND = 2, RING_ZERO = 3, RING_LABEL = 4, RING_HANDLE = 16 };

enum { LABEL_SIZE = 12, HANDLE_128 = 48, HANDLE_256 = 64 };

enum { R15_KEYRING = 15, R16_NO_LABEL = 16, R17_FULL = 17 };

/* 0 or the refusal's number; what is lent is written where it is 0 */
uint32_t model_lookup(struct buffer keyring, struct buffer label, uint8_t *kind, uint8_t handle[HANDLE_256]);
uint32_t model_add(struct buffer keyring, struct buffer label, struct buffer handle);

#endif
