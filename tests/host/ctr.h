/* Counter mode of NIST SP 800-38A, 6.5, with a counter of all 16 bytes. */
#ifndef CTR_H
#define CTR_H

#include "records.h"

/* The counter block plus i, big-endian, modulo 2^128. */
void counter_block(const uint8_t counter[COUNTER_SIZE], uint64_t i, uint8_t block[16]);

void ctr_xor(const uint8_t *key, size_t key_length, const uint8_t counter[COUNTER_SIZE], struct buffer data);

#endif
