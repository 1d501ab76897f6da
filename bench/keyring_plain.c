// The keyring in plain C, written to be fast: every record's fields in one pass, then a walk of the sixteen chains
// that marks what it meets, then the search.
#include "keyring_plain.h"

#include "keylocker.h"

#include <stdbool.h>
#include <string.h>

enum {
    RECORD = KEYLOCKER_KEYRING_RECORD,
    MOST = KEYLOCKER_KEYRING_LIMIT / KEYLOCKER_KEYRING_RECORD,
    TAIL = 2 * KEYLOCKER_KEYRING_HEADS,
    HANDLE = KEYLOCKER_RECORD_HANDLE,
};

static size_t index_at(const uint8_t *p) { return (size_t)p[0] | (size_t)p[1] << 8; }

static size_t handle_size(uint8_t kind)
{
    return kind == KEYLOCKER_KIND_256 ? KEYLOCKER_HANDLE_256_SIZE : KEYLOCKER_HANDLE_128_SIZE;
}

// Next index, kind and zero byte are the first four bytes: a compiler makes one load of them.
static bool fields_valid(const uint8_t *keyring, size_t n)
{
    for (size_t i = 1; i < n; i++) {
        const uint8_t *r = keyring + RECORD * i;
        uint32_t fields = (uint32_t)r[0] | (uint32_t)r[1] << 8 | (uint32_t)r[2] << 16 | (uint32_t)r[3] << 24;
        if ((fields & 0xffff) >= n || fields >> 16 > KEYLOCKER_KIND_256)
            return false;
    }
    return true;
}

static bool tail_zero(const uint8_t *keyring)
{
    static const uint8_t zero[RECORD - TAIL];
    return memcmp(keyring + TAIL, zero, sizeof zero) == 0;
}

// Marks every record that a head reaches; false where one is past the end or reached twice.
static bool mark_chains(const uint8_t *keyring, size_t n, uint8_t *marks)
{
    for (int k = 0; k < KEYLOCKER_KEYRING_HEADS; k++) {
        size_t i = index_at(keyring + 2 * k);
        if (i >= n)
            return false;
        for (; i != 0; i = index_at(keyring + RECORD * i)) {
            if (marks[i])
                return false;
            marks[i] = 1;
        }
    }
    return true;
}

// Where it is one, marks holds which of its records are on a chain.
static bool keyring_valid(const uint8_t *keyring, size_t len, uint8_t marks[MOST])
{
    size_t n = len / RECORD;
    if (len == 0 || len % RECORD != 0 || len > KEYLOCKER_KEYRING_LIMIT)
        return false;
    memset(marks, 0, n);
    return tail_zero(keyring) && fields_valid(keyring, n) && mark_chains(keyring, n, marks);
}

static size_t head_of(const uint8_t *label) { return 2 * (size_t)(label[0] & 15); }

// The first record of the chain that has the label, 0 for none.
static size_t find(const uint8_t *keyring, const uint8_t *label)
{
    size_t i = index_at(keyring + head_of(label));
    while (i != 0 && memcmp(keyring + RECORD * i + KEYLOCKER_RECORD_LABEL, label, KEYLOCKER_LABEL_SIZE) != 0)
        i = index_at(keyring + RECORD * i);
    return i;
}

uint32_t plain_keyring_lookup(const uint8_t *keyring, size_t keyring_len, const uint8_t *label, size_t label_len,
                              uint8_t *kind, uint8_t handle[64])
{
    uint8_t marks[MOST];
    if (label_len != KEYLOCKER_LABEL_SIZE || !keyring_valid(keyring, keyring_len, marks))
        return KEYLOCKER_BAD_KEYRING;
    size_t i = find(keyring, label);
    if (i == 0)
        return KEYLOCKER_NO_LABEL;
    const uint8_t *record = keyring + RECORD * i;
    size_t size = handle_size(record[KEYLOCKER_RECORD_KIND]);
    *kind = record[KEYLOCKER_RECORD_KIND];
    memcpy(handle, record + HANDLE, size);
    memset(handle + size, 0, KEYLOCKER_HANDLE_256_SIZE - size);
    return KEYLOCKER_DONE;
}

static void put_handle(uint8_t *record, const uint8_t *handle, size_t size)
{
    record[KEYLOCKER_RECORD_KIND] = size == KEYLOCKER_HANDLE_256_SIZE ? KEYLOCKER_KIND_256 : KEYLOCKER_KIND_128;
    memcpy(record + HANDLE, handle, size);
    memset(record + HANDLE + size, 0, KEYLOCKER_HANDLE_256_SIZE - size);
}

static size_t lowest_free(const uint8_t *marks, size_t n)
{
    size_t i = 1;
    while (i < n && marks[i])
        i++;
    return i;
}

uint32_t plain_keyring_add(uint8_t *keyring, size_t keyring_len, const uint8_t *label, size_t label_len,
                           const uint8_t *handle, size_t handle_len)
{
    uint8_t marks[MOST];
    size_t n = keyring_len / RECORD;
    if (label_len != KEYLOCKER_LABEL_SIZE ||
        (handle_len != KEYLOCKER_HANDLE_128_SIZE && handle_len != KEYLOCKER_HANDLE_256_SIZE) ||
        !keyring_valid(keyring, keyring_len, marks))
        return KEYLOCKER_BAD_KEYRING;
    size_t i = find(keyring, label);
    if (i != 0) {
        put_handle(keyring + RECORD * i, handle, handle_len);
        return KEYLOCKER_DONE;
    }
    i = lowest_free(marks, n);
    if (i == n)
        return KEYLOCKER_KEYRING_FULL;
    uint8_t *record = keyring + RECORD * i, *head = keyring + head_of(label);
    memcpy(record + KEYLOCKER_RECORD_NEXT, head, 2);
    record[KEYLOCKER_RECORD_ZERO] = 0;
    memcpy(record + KEYLOCKER_RECORD_LABEL, label, KEYLOCKER_LABEL_SIZE);
    put_handle(record, handle, handle_len);
    head[0] = (uint8_t)i;
    head[1] = (uint8_t)(i >> 8);
    return KEYLOCKER_DONE;
}
