#include "handle.h"

#include <string.h>

#include "aes.h"
#include "faults.h"

/* r divided by x, modulo x^128 + x^127 + x^126 + x^121 + 1. Bit i of the low word is the coefficient of x^i. */
static void divide_by_x(uint64_t r[2])
{
    uint64_t odd = r[0] & 1;
    r[0] = r[0] >> 1 | r[1] << 63;
    r[1] = r[1] >> 1;
    if (odd)
        r[1] ^= UINT64_C(1) << 63 | UINT64_C(1) << 62 | UINT64_C(1) << 61 | UINT64_C(1) << 56;
}

/* dot(a, b) = a * b * x^-128: the term of a at x^i is divided by x 128 - i times */
void dot(const uint8_t a[16], const uint8_t b[16], uint8_t result[16])
{
    uint64_t factor[2] = {load64(b), load64(b + 8)}, r[2] = {0, 0};
    for (unsigned i = 0; i < 128; i++) {
        if (a[i / 8] >> i % 8 & 1) {
            r[0] ^= factor[0];
            r[1] ^= factor[1];
        }
        divide_by_x(r);
    }
    store64(result, r[0]);
    store64(result + 8, r[1]);
}

void polyval(const uint8_t h[16], const uint8_t *blocks, size_t count, uint8_t result[16])
{
    uint8_t s[16] = {0};
    for (size_t j = 0; j < count; j++) {
        for (int i = 0; i < 16; i++)
            s[i] ^= blocks[16 * j + i];
        dot(s, h, s);
    }
    memcpy(result, s, 16);
}

void handle_tag(const struct iwkey *iwkey, const uint8_t aad[AAD_SIZE], const uint8_t *key, size_t key_length, uint8_t tag[TAG_SIZE])
{
    uint8_t blocks[AAD_SIZE + 32 + 16], s[16];
    uint64_t aad_bits = 8 * AAD_SIZE, key_bits = 8 * key_length;
    if (FAULT(LENGTHS_IN_BYTES))
        aad_bits /= 8, key_bits /= 8;
    memcpy(blocks, aad, AAD_SIZE);
    memcpy(blocks + AAD_SIZE, key, key_length);
    store64(blocks + AAD_SIZE + key_length, FAULT(LENGTHS_EXCHANGED) ? key_bits : aad_bits);
    store64(blocks + AAD_SIZE + key_length + 8, FAULT(LENGTHS_EXCHANGED) ? aad_bits : key_bits);
    polyval(iwkey->integrity, blocks, (AAD_SIZE + key_length + 16) / 16, s);
    if (!FAULT(POLYVAL_TOP_BIT))
        s[15] &= 0x7f;
    aes_encrypt(iwkey->encryption, 32, s, tag);
}

/* bytes 0 to 3 count up little-endian, modulo 2^32 */
static void count_up(uint8_t counter[16])
{
    if (FAULT(COUNTER_BIG_ENDIAN)) {
        for (int i = 3; i >= 0 && ++counter[i] == 0; i--)
            ;
        return;
    }
    store32(counter, load32(counter) + 1);
    if (FAULT(COUNTER_CARRIES) && load32(counter) == 0)
        counter[4]++;
}

void handle_keystream(const struct iwkey *iwkey, const uint8_t tag[TAG_SIZE], const uint8_t *in, size_t length, uint8_t *out)
{
    uint8_t counter[16], stream[16];
    memcpy(counter, tag, 16);
    if (!FAULT(COUNTER_TOP_BIT))
        counter[15] |= 0x80;
    for (size_t at = 0; at < length; at += 16) {
        aes_encrypt(iwkey->encryption, 32, counter, stream);
        for (size_t i = 0; i < 16; i++)
            out[at + i] = in[at + i] ^ (FAULT(KEY_AS_CIPHERTEXT) ? 0 : stream[i]);
        count_up(counter);
    }
}

void wrap(const struct iwkey *iwkey, const uint8_t aad[AAD_SIZE], const uint8_t *key, size_t key_length, uint8_t *handle)
{
    uint8_t zero[32] = {0};
    memcpy(handle, aad, AAD_SIZE);
    handle_tag(iwkey, aad, FAULT(FIXED_HANDLE) ? zero : key, key_length, handle + AAD_SIZE);
    handle_keystream(iwkey, handle + AAD_SIZE, FAULT(FIXED_HANDLE) ? zero : key, key_length, handle + HANDLE_HEAD);
}

bool unwrap(const struct iwkey *iwkey, const uint8_t *handle, size_t key_length, uint8_t *key)
{
    uint8_t tag[TAG_SIZE];
    handle_keystream(iwkey, handle + AAD_SIZE, handle + HANDLE_HEAD, key_length, key);
    handle_tag(iwkey, handle, key, key_length, tag);
    if (FAULT(TAG_TOP_BIT_IGNORED))
        tag[15] = (tag[15] & 0x7f) | (handle[AAD_SIZE + 15] & 0x80);
    return memcmp(tag, handle + AAD_SIZE, FAULT(TAG_OF_15_BYTES) ? 15 : TAG_SIZE) == 0;
}
