#include "forge.h"

#include <string.h>

#include "aes.h"
#include "chance.h"
#include "handle.h"

/* The inverse for dot as a multiplication: the power 2^128 - 2. */
static void dot_inverse(const uint8_t h[16], uint8_t inverse[16])
{
    uint8_t square[16];
    dot(h, h, square);
    memcpy(inverse, square, 16);
    for (int i = 2; i < 128; i++) {
        dot(square, square, square);
        dot(inverse, square, inverse);
    }
}

static void add(uint8_t a[16], const uint8_t b[16])
{
    for (int i = 0; i < 16; i++)
        a[i] ^= b[i];
}

/* A tag that begins with FF FF FF FF, and a POLYVAL result that gives it. */
static void choose_wrapping_tag(const struct iwkey *iwkey, uint8_t tag[TAG_SIZE], uint8_t s[16])
{
    do {
        any_bytes(tag, TAG_SIZE);
        memset(tag, 0xFF, 4);
        aes_decrypt(iwkey->encryption, 32, tag, s);
    } while (s[15] & 0x80);
    s[15] |= one_in(2) ? 0x80 : 0; /* cleared again by wrapping */
}

/* POLYVAL's steps taken back from the chosen result give the first half of a 32-byte key; the second half is free. */
static void forge_counter_wrap(const struct iwkey *iwkey, struct known_handle *handle)
{
    uint8_t aad[AAD_SIZE] = {0, 0, 0, 1}, inverse[16], key[32], s[16], lengths[16], first[16];
    choose_wrapping_tag(iwkey, handle->bytes + AAD_SIZE, s);
    dot_inverse(iwkey->integrity, inverse);
    any_bytes(key + 16, 16);
    store64(lengths, 8 * AAD_SIZE);
    store64(lengths + 8, 8 * 32);
    dot(s, inverse, s);
    add(s, lengths);
    dot(s, inverse, s);
    add(s, key + 16);
    dot(s, inverse, s);
    dot(aad, iwkey->integrity, first);
    add(s, first);
    memcpy(key, s, 16);
    memcpy(handle->bytes, aad, AAD_SIZE);
    handle_keystream(iwkey, handle->bytes + AAD_SIZE, key, 32, handle->bytes + HANDLE_HEAD);
    handle->length = HANDLE_MOST;
}

/* The stored tag has one bit flipped, and the ciphertext belongs to it: the key comes out, and with it the tag that was not stored. */
static void forge_tag_only(const struct iwkey *iwkey, struct known_handle *handle)
{
    size_t key_bytes = one_in(2) ? 16 : 32, bit = below(8 * TAG_SIZE - 1);
    uint8_t aad[AAD_SIZE] = {0, 0, 0, key_bytes == 32}, key[32], *tag = handle->bytes + AAD_SIZE;
    any_bytes(key, sizeof key);
    memcpy(handle->bytes, aad, AAD_SIZE);
    handle_tag(iwkey, aad, key, key_bytes, tag);
    tag[bit / 8] ^= (uint8_t)(1 << bit % 8);
    handle_keystream(iwkey, tag, key, key_bytes, handle->bytes + HANDLE_HEAD);
    handle->length = HANDLE_HEAD + key_bytes;
}

/* Authentic in all but that its AAD has a reserved bit (3 to 23, 28 to 127), or a key type that its length does not have. */
static void forge_aad(const struct iwkey *iwkey, bool reserved, struct known_handle *handle)
{
    size_t key_bytes = one_in(2) ? 16 : 32, bit = below(21 + 100);
    uint8_t type = key_bytes == 32, aad[AAD_SIZE] = {0}, key[32];
    bit = bit < 21 ? 3 + bit : 28 + bit - 21;
    if (!reserved)
        type = one_in(2) ? !type : (uint8_t)(2 + below(14));
    aad[3] = type;
    if (reserved)
        aad[bit / 8] |= (uint8_t)(1 << bit % 8);
    any_bytes(key, sizeof key);
    wrap(iwkey, aad, key, key_bytes, handle->bytes);
    handle->length = HANDLE_HEAD + key_bytes;
}

bool forge_handle(enum handle_origin origin, const struct iwkey *iwkey, const struct known_handle *known, struct known_handle *handle)
{
    static const uint8_t zero[16];
    if (known)
        *handle = *known;
    switch (origin) {
    case HANDLE_FLIPPED:
        if (known)
            handle->bytes[below(handle->length)] ^= (uint8_t)(1 + below(255));
        return known != NULL;
    case HANDLE_TOP_BIT:
        if (known)
            handle->bytes[AAD_SIZE + 15] ^= 0x80;
        return known != NULL;
    case HANDLE_TAG_ONLY:
        forge_tag_only(iwkey, handle);
        return true;
    case HANDLE_RESERVED_BIT:
    case HANDLE_WRONG_TYPE:
        forge_aad(iwkey, origin == HANDLE_RESERVED_BIT, handle);
        return true;
    case HANDLE_COUNTER_WRAPS:
        if (memcmp(iwkey->integrity, zero, 16) == 0)
            return false;
        forge_counter_wrap(iwkey, handle);
        return true;
    case HANDLE_JUNK:
        any_bytes(handle->bytes, HANDLE_MOST);
        handle->length = one_in(2) ? 48 : 64;
        if (one_in(2))
            memset(handle->bytes, 0, AAD_SIZE);
        return true;
    default:
        return known != NULL;
    }
}
