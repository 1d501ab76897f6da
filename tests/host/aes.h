/* AES of FIPS 197, byte by byte, for the two key lengths that Key Locker has (16 and 32 bytes). */
#ifndef AES_H
#define AES_H

#include <stddef.h>
#include <stdint.h>

/* computes the S-box from its rule; before anything else */
void aes_start(void);

/* the words of the key schedule, four for each round key; returns the number of rounds */
enum { AES_WORDS_MOST = 60 };
unsigned aes_expand_key(const uint8_t *key, size_t key_length, uint8_t w[AES_WORDS_MOST][4]);

void aes_encrypt(const uint8_t *key, size_t key_length, const uint8_t in[16], uint8_t out[16]);
void aes_decrypt(const uint8_t *key, size_t key_length, const uint8_t in[16], uint8_t out[16]);

#endif
