/* Reproducible random choices. */
#ifndef CHANCE_H
#define CHANCE_H

#include <stdbool.h>
#include <stddef.h>
#include <stdint.h>

void chance_seed(uint64_t seed);
uint64_t any64(void);
uint64_t below(uint64_t bound);
bool one_in(uint64_t n);
void any_bytes(void *bytes, size_t length);

#endif
