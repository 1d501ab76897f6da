// Two cores for key wrapping in portable C that the proved library is measured against: one on
// byte-wise AES (keywrap_bytes.c) and one on T-tables (keywrap_ttables.c). Both have the library's
// three functions.
//
// size 0 is a handle for AES-128: of the key 16 bytes count, of the handle 48, and what is written
// after them is zero. Any other size is one for AES-256.
#ifndef KEYWRAP_BASELINE_H
#define KEYWRAP_BASELINE_H

#include <stddef.h>
#include <stdint.h>

enum { KEY_BYTES = 32, HANDLE_BYTES = 64 };

enum { AES_256 = 1 }; // the size of the encryption key, whatever that of the wrapped one is

// POLYVAL of RFC 8452 over the whole blocks of data, which has len bytes.
typedef void polyval_fn(const uint8_t h[16], const uint8_t *data, size_t len, uint8_t result[16]);

// The handle is AAD, tag and ciphertext.
typedef void wrap_fn(uint8_t size, const uint8_t integrity[16], const uint8_t encryption[32], const uint8_t aad[16],
                     const uint8_t key[32], uint8_t handle[64]);

// 1 and the key, or 0 and zeros.
typedef uint8_t unwrap_fn(uint8_t size, const uint8_t integrity[16], const uint8_t encryption[32],
                          const uint8_t handle[64], uint8_t key[32]);

polyval_fn bytes_polyval_blocks, ttables_polyval_blocks;
wrap_fn bytes_wrap, ttables_wrap;
unwrap_fn bytes_unwrap, ttables_unwrap;

#endif
