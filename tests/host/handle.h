/* Handles: the scope's "AES and wrapping", with POLYVAL of RFC 8452, one bit at a time. */
#ifndef HANDLE_H
#define HANDLE_H

#include "records.h"

/* RFC 8452 section 3 */
void dot(const uint8_t a[16], const uint8_t b[16], uint8_t result[16]);
void polyval(const uint8_t h[16], const uint8_t *blocks, size_t count, uint8_t result[16]);

void handle_tag(const struct iwkey *iwkey, const uint8_t aad[AAD_SIZE], const uint8_t *key, size_t key_length, uint8_t tag[TAG_SIZE]);
/* out is in XORed with the keystream that belongs to a tag */
void handle_keystream(const struct iwkey *iwkey, const uint8_t tag[TAG_SIZE], const uint8_t *in, size_t length, uint8_t *out);

void wrap(const struct iwkey *iwkey, const uint8_t aad[AAD_SIZE], const uint8_t *key, size_t key_length, uint8_t *handle);
bool unwrap(const struct iwkey *iwkey, const uint8_t *handle, size_t key_length, uint8_t *key);

#endif
