// Two AES cores in portable C that the proved library is measured against: one byte by byte
// (aes_bytes.c) and one with T-tables (aes_ttables.c). Both have the library's five functions, and
// counter mode.
//
// size 0 is AES-128, of whose key the first 16 bytes are read; any other size is AES-256.
// w holds the round keys. data of len bytes is changed in place, every whole block of it, and in counter
// mode all of it: XORed with the encryptions of counter, counter + 1, .., big-endian modulo 2^128.
#ifndef AES_BASELINE_H
#define AES_BASELINE_H

#include <stddef.h>
#include <stdint.h>

enum { BLOCK_BYTES = 16, MAX_WORDS = 60 };

// The S-box and its inverse, computed by sbox_init, which comes before all else.
extern uint8_t sbox[256], inv_sbox[256];
void sbox_init(void);

static inline unsigned rounds_of(uint8_t size) { return size == 0 ? 10 : 14; }

// The number of key words, Nk in FIPS 197.
static inline unsigned key_words_of(uint8_t size) { return size == 0 ? 4 : 8; }

static inline int key_bits(uint8_t size) { return size == 0 ? 128 : 256; }

// Multiplies by x in GF(2^8).
static inline uint8_t xtime(uint8_t a) { return (uint8_t)((a << 1) ^ (-(a >> 7) & 0x1b)); }

// Multiplies in GF(2^8). Slow: for making tables.
static inline uint8_t gf_mul(uint8_t a, uint8_t b)
{
    uint8_t product = 0;
    for (; b != 0; b >>= 1, a = xtime(a))
        if (b & 1)
            product ^= a;
    return product;
}

// Byte by byte. w is bytes in the order of FIPS 197, in the memory of the words.
void bytes_key_expansion(uint8_t size, const uint8_t key[32], uint32_t w[60]);
void bytes_key_expansion_grouped(uint8_t size, const uint8_t key[32], uint32_t w[60]);
void bytes_encrypt_block(uint8_t size, const uint32_t w[60], uint8_t block[16]);
void bytes_decrypt_block(uint8_t size, const uint32_t w[60], uint8_t block[16]);
void bytes_encrypt_blocks(uint8_t size, const uint32_t w[60], uint8_t *data, size_t len);
void bytes_decrypt_blocks(uint8_t size, const uint32_t w[60], uint8_t *data, size_t len);
void bytes_ctr(uint8_t size, const uint32_t w[60], const uint8_t counter[16], uint8_t *data, size_t len);

// T-tables, made by ttables_init. The first byte of a word of w is its lowest. Decryption takes the
// schedule of the equivalent inverse cipher (FIPS 197, 5.3.5), which ttables_inv_key_expansion makes
// of w in place.
void ttables_init(void);
void ttables_key_expansion(uint8_t size, const uint8_t key[32], uint32_t w[60]);
void ttables_inv_key_expansion(uint8_t size, uint32_t w[60]);
void ttables_encrypt_block(uint8_t size, const uint32_t w[60], uint8_t block[16]);
void ttables_decrypt_block(uint8_t size, const uint32_t dw[60], uint8_t block[16]);
void ttables_encrypt_blocks(uint8_t size, const uint32_t w[60], uint8_t *data, size_t len);
void ttables_decrypt_blocks(uint8_t size, const uint32_t dw[60], uint8_t *data, size_t len);
void ttables_ctr(uint8_t size, const uint32_t w[60], const uint8_t counter[16], uint8_t *data, size_t len);

#endif
