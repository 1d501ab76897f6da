// The keyring in plain C, with the parameters and answers of the library's calls.
#ifndef KEYRING_PLAIN_H
#define KEYRING_PLAIN_H

#include <stddef.h>
#include <stdint.h>

uint32_t plain_keyring_lookup(const uint8_t *keyring, size_t keyring_len, const uint8_t *label, size_t label_len,
                              uint8_t *kind, uint8_t handle[64]);
uint32_t plain_keyring_add(uint8_t *keyring, size_t keyring_len, const uint8_t *label, size_t label_len,
                           const uint8_t *handle, size_t handle_len);

#endif
