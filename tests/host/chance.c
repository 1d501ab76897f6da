#include "chance.h"

#include <string.h>

static uint64_t state;

void chance_seed(uint64_t seed)
{
    state = seed;
}

/* splitmix64 */
uint64_t any64(void)
{
    uint64_t z = state += UINT64_C(0x9E3779B97F4A7C15);
    z = (z ^ z >> 30) * UINT64_C(0xBF58476D1CE4E5B9);
    z = (z ^ z >> 27) * UINT64_C(0x94D049BB133111EB);
    return z ^ z >> 31;
}

uint64_t below(uint64_t bound)
{
    return any64() % bound;
}

bool one_in(uint64_t n)
{
    return below(n) == 0;
}

void any_bytes(void *bytes, size_t length)
{
    uint8_t *at = bytes;
    for (; length >= 8; at += 8, length -= 8) {
        uint64_t value = any64();
        memcpy(at, &value, 8);
    }
    for (; length > 0; length--)
        *at++ = (uint8_t)any64();
}
