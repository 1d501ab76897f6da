// What the two cores of keywrap_baseline.h have in common: wrapping, over any AES and any POLYVAL.
#ifndef KEYWRAP_SIV_H
#define KEYWRAP_SIV_H

#include "aes_baseline.h"
#include "keywrap_baseline.h"

#include <string.h>

// Where the cores differ. A core gives its parts as a constant, so that its calls are direct.
struct parts {
    void (*key_expansion)(uint8_t size, const uint8_t key[32], uint32_t w[60]);
    void (*encrypt_blocks)(uint8_t size, const uint32_t w[60], uint8_t *data, size_t len);
    polyval_fn *polyval_blocks;
};

// An element of POLYVAL's field: bit i is the coefficient of x^i, and lo has the first 64.
struct element {
    uint64_t lo, hi;
};

static inline uint64_t load64(const uint8_t p[8])
{
    return p[0] | (uint64_t)p[1] << 8 | (uint64_t)p[2] << 16 | (uint64_t)p[3] << 24 | (uint64_t)p[4] << 32 |
           (uint64_t)p[5] << 40 | (uint64_t)p[6] << 48 | (uint64_t)p[7] << 56;
}

// By way of an array: the stores of single bytes gcc 12 does not join into one, but builds a vector of them.
static inline void store64(uint8_t p[8], uint64_t x)
{
    const uint8_t bytes[8] = {(uint8_t)x,         (uint8_t)(x >> 8),  (uint8_t)(x >> 16), (uint8_t)(x >> 24),
                              (uint8_t)(x >> 32), (uint8_t)(x >> 40), (uint8_t)(x >> 48), (uint8_t)(x >> 56)};
    memcpy(p, bytes, sizeof bytes);
}

static inline struct element load_element(const uint8_t p[16]) { return (struct element){load64(p), load64(p + 8)}; }

static inline void store_element(uint8_t p[16], struct element a)
{
    store64(p, a.lo);
    store64(p + 8, a.hi);
}

static inline struct element add(struct element a, struct element b)
{
    return (struct element){a.lo ^ b.lo, a.hi ^ b.hi};
}

static const uint64_t top_bit = (uint64_t)1 << 63; // as a part of hi: that of byte 15

// POLYVAL over AAD, key and the block of their lengths in bits, encrypted without its top bit.
static inline void siv_tag(const struct parts *parts, uint8_t size, const uint8_t integrity[16], const uint32_t w[60],
                           const uint8_t aad[16], const uint8_t key[32], uint8_t tag[16])
{
    uint8_t input[4 * BLOCK_BYTES], *lengths = input + 16 + key_bits(size) / 8;
    memcpy(input, aad, 16);
    memcpy(input + 16, key, 16);
    if (size != 0)
        memcpy(input + 32, key + 16, 16);
    store_element(lengths, (struct element){8 * 16, (uint64_t)key_bits(size)});

    parts->polyval_blocks(integrity, input, (size_t)(lengths + 16 - input), tag);
    store64(tag + 8, load64(tag + 8) & ~top_bit);
    parts->encrypt_blocks(AES_256, w, tag, BLOCK_BYTES);
}

// Adds the keystream to a key or a ciphertext. What comes after an AES-128 key is zero.
static inline void siv_crypt(const struct parts *parts, uint8_t size, const uint32_t w[60], const uint8_t tag[16],
                             const uint8_t from[32], uint8_t to[32])
{
    uint8_t stream[2 * BLOCK_BYTES];
    struct element counter = load_element(tag);
    counter.hi |= top_bit;
    store_element(stream, counter);
    counter.lo = (counter.lo & ~(uint64_t)UINT32_MAX) | (uint32_t)(counter.lo + 1);
    store_element(stream + 16, counter);
    parts->encrypt_blocks(AES_256, w, stream, (size_t)key_bits(size) / 8);

    store_element(to, add(load_element(from), load_element(stream)));
    if (size != 0)
        store_element(to + 16, add(load_element(from + 16), load_element(stream + 16)));
    else
        memset(to + 16, 0, 16);
}

static inline void siv_key_wrap(const struct parts *parts, uint8_t size, const uint8_t integrity[16],
                                const uint8_t encryption[32], const uint8_t aad[16], const uint8_t key[32],
                                uint8_t handle[64])
{
    uint32_t w[MAX_WORDS];
    parts->key_expansion(AES_256, encryption, w);
    memcpy(handle, aad, 16);
    siv_tag(parts, size, integrity, w, aad, key, handle + 16);
    siv_crypt(parts, size, w, handle + 16, key, handle + 32);
}

static inline uint8_t siv_key_unwrap(const struct parts *parts, uint8_t size, const uint8_t integrity[16],
                                     const uint8_t encryption[32], const uint8_t handle[64], uint8_t key[32])
{
    uint32_t w[MAX_WORDS];
    uint8_t tag[16];
    parts->key_expansion(AES_256, encryption, w);
    siv_crypt(parts, size, w, handle + 16, handle + 32, key);
    siv_tag(parts, size, integrity, w, handle, key, tag);
    if (memcmp(tag, handle + 16, 16) == 0)
        return 1;
    memset(key, 0, KEY_BYTES);
    return 0;
}

#endif
