#include "keyring_model.h"

#include <string.h>

#include "faults.h"

/* A record, and the one behind it in its chain. */
struct record {
    uint8_t *bytes;
    struct record *next; /* or none */
    bool inside;         /* its next index is 0 or that of a record */
    unsigned chain;      /* of the head that reaches it, counted from 1; 0 where none does */
};

struct keyring {
    size_t count;
    struct record *heads[RING_HEADS];
    struct record records[RING_RECORDS + 1]; /* a planted fault takes one more */
};

static bool is_zero(const uint8_t *bytes, size_t length)
{
    for (size_t i = 0; i < length; i++)
        if (bytes[i])
            return false;
    return true;
}

/* ---- 15 ---- */

static bool size_allowed(size_t length)
{
    size_t least = FAULT(KEYRING_80_REFUSED) ? 2 * RING_RECORD : FAULT(KEYRING_SIZE_0) ? 0 : RING_RECORD;
    if (length < least || length > RING_LIMIT + (FAULT(KEYRING_820_RECORDS) ? RING_RECORD : 0))
        return false;
    return length % RING_RECORD == 0 || (FAULT(KEYRING_SIZE_UNEVEN) && length > RING_RECORD);
}

/* The record that a stored index names, none for 0; whether it is below the end. */
static bool follow(struct keyring *k, const uint8_t stored[2], size_t end, struct record **found)
{
    size_t index = FAULT(KEYRING_BIG_ENDIAN) ? stored[0] << 8 | stored[1] : FAULT(KEYRING_INDEX_BYTE) ? stored[0] : stored[1] << 8 | stored[0];
    *found = index == 0 || index >= k->count ? NULL : &k->records[index];
    return index < end;
}

static bool link_heads(struct keyring *k, const uint8_t *block)
{
    bool inside = true;
    for (int h = 0; h < RING_HEADS; h++) {
        bool tested = h < RING_HEADS - (FAULT(KEYRING_HEAD_15) ? 1 : 0);
        inside &= follow(k, block + 2 * h, k->count + (FAULT(KEYRING_HEAD_AT_END) ? 1 : 0), &k->heads[h]) || !tested;
    }
    return inside;
}

static void link_records(struct keyring *k, uint8_t *block)
{
    for (size_t i = 1; i < k->count; i++) {
        struct record *r = &k->records[i];
        r->bytes = block + RING_RECORD * i;
        r->inside = follow(k, r->bytes + RING_NEXT, k->count + (FAULT(KEYRING_NEXT_AT_END) ? 1 : 0), &r->next);
        r->chain = 0;
    }
}

/* whether a planted fault lets a record be met again, on its own chain or on another */
static bool lets_pass(bool own)
{
    return own ? FAULT(KEYRING_CYCLE) : FAULT(KEYRING_JOINED);
}

/* From each head to the end of its chain; false where a record is met that was met before. */
static bool visit_chains(struct keyring *k)
{
    for (unsigned h = 0; h < RING_HEADS; h++)
        for (struct record **link = &k->heads[h]; *link; link = &(*link)->next) {
            struct record *r = *link;
            bool again = r->chain != 0, own = r->chain == h + 1;
            if (again && !lets_pass(own))
                return false;
            if (again && own)
                *link = NULL; /* so that a search ends */
            if (again)
                break;
            r->chain = h + 1;
        }
    return true;
}

static bool belongs(const struct record *r)
{
    return (r->bytes[RING_LABEL] & 15) + 1u == r->chain;
}

/* another of its chain, behind it, has its label */
static bool label_comes_again(const struct record *r)
{
    for (const struct record *other = r->next; other; other = other->next)
        if (memcmp(other->bytes + RING_LABEL, r->bytes + RING_LABEL, LABEL_SIZE) == 0)
            return true;
    return false;
}

/* what only a planted fault refuses */
static bool refused_by_fault(const struct record *r)
{
    if (FAULT(KEYRING_UNUSED_REACHES) && !r->chain && r->next && (r->next == r || r->next->chain))
        return true;
    if (FAULT(KEYRING_FILL_TESTED) && r->chain && r->bytes[RING_KIND] == 0 && !is_zero(r->bytes + RING_HANDLE + HANDLE_128, HANDLE_256 - HANDLE_128))
        return true;
    if (FAULT(KEYRING_UNUSED_ZERO) && !r->chain && !is_zero(r->bytes, RING_RECORD))
        return true;
    if (FAULT(KEYRING_WRONG_CHAIN) && r->chain && !belongs(r))
        return true;
    return FAULT(KEYRING_SAME_LABEL) && r->chain && label_comes_again(r);
}

/* next index, kind and zero byte: of a record on no chain, too */
static bool fields_allowed(const struct record *r)
{
    uint8_t most = FAULT(KEYRING_KIND_2) ? 2 : 1;
    if (!r->inside && (r->chain || !FAULT(KEYRING_UNUSED_NEXT)))
        return false;
    if (r->bytes[RING_KIND] > most && (r->chain || !FAULT(KEYRING_UNUSED_KIND)))
        return false;
    return r->bytes[RING_ZERO] == 0 || FAULT(KEYRING_ZERO_BYTE) || (FAULT(KEYRING_UNUSED_ZERO_BYTE) && !r->chain);
}

/* false for 15 */
static bool take_apart(struct buffer block, struct keyring *k)
{
    size_t skipped = FAULT(KEYRING_TAIL_FIRST) ? 1 : 0, tail = RING_RECORD - RING_TAIL - (FAULT(KEYRING_TAIL_LAST) ? 1 : 0);
    memset(k->heads, 0, sizeof k->heads);
    k->count = block.length / RING_RECORD;
    if (!size_allowed(block.length))
        return false;
    if (k->count == 0)
        return true;
    k->records[0] = (struct record){.bytes = block.bytes, .chain = 1}; /* only a planted fault looks at it */
    link_records(k, block.bytes);
    if (!link_heads(k, block.bytes) || !is_zero(block.bytes + RING_TAIL + skipped, tail - skipped) || !visit_chains(k))
        return false;
    if (FAULT(KEYRING_RECORD_0_FIELDS) && (block.bytes[RING_KIND] > 1 || block.bytes[RING_ZERO]))
        return false;
    for (size_t i = 1; i < k->count; i++)
        if (!fields_allowed(&k->records[i]) || (FAULTY && refused_by_fault(&k->records[i])))
            return false;
    return true;
}

/* ---- the search ---- */

static unsigned head_of(const uint8_t *label)
{
    return FAULT(KEYRING_HIGH_BITS) ? label[0] >> 4 : label[0] & (FAULT(KEYRING_THREE_BITS) ? 7 : 15);
}

static bool has_label(const struct record *r, const uint8_t *label)
{
    return memcmp(r->bytes + RING_LABEL, label, LABEL_SIZE - (FAULT(KEYRING_LABEL_11) ? 1 : 0)) == 0;
}

/* the first of its chain, or none; index 0 is the end of a chain and no record of it */
static struct record *find(struct keyring *k, const uint8_t *label)
{
    struct record *found = NULL;
    for (unsigned h = 0; h < RING_HEADS; h++) {
        if (h != head_of(label) && !FAULT(KEYRING_ALL_CHAINS))
            continue;
        for (struct record *r = k->heads[h]; r && (!found || FAULT(KEYRING_LAST_MATCH)); r = r->next)
            if (has_label(r, label))
                found = r;
    }
    if (FAULT(KEYRING_RECORD_0_SEARCHED) && !found && k->count && has_label(&k->records[0], label))
        return &k->records[0];
    return FAULT(KEYRING_ZERO_LABEL) && is_zero(label, LABEL_SIZE) ? NULL : found;
}

uint32_t model_lookup(struct buffer keyring, struct buffer label, uint8_t *kind, uint8_t handle[HANDLE_256])
{
    static struct keyring k;
    bool label_allowed = label.length == LABEL_SIZE || (FAULT(KEYRING_LABEL_13) && label.length > LABEL_SIZE);
    if (!label_allowed && FAULT(KEYRING_LABEL_LATE))
        return take_apart(keyring, &k) ? R16_NO_LABEL : R15_KEYRING;
    if (!label_allowed || !take_apart(keyring, &k))
        return R15_KEYRING;
    const struct record *found = find(&k, label.bytes);
    if (!found)
        return R16_NO_LABEL;
    *kind = found->bytes[RING_KIND];
    if (*kind == 0 && !FAULT(KEYRING_FILL_GIVEN)) {
        memset(handle, 0, HANDLE_256);
        memcpy(handle, found->bytes + RING_HANDLE, HANDLE_128);
    } else {
        memcpy(handle, found->bytes + RING_HANDLE, HANDLE_256);
    }
    return 0;
}

/* ---- adding ---- */

static void put_index(uint8_t *stored, const struct keyring *k, const struct record *r)
{
    size_t index = r ? (size_t)(r - k->records) : 0;
    stored[0] = (uint8_t)index;
    stored[1] = FAULT(KEYRING_INDEX_BYTE) ? 0 : (uint8_t)(index >> 8);
}

/* the kind is that of the handle's size; what the handle does not take of the 64 bytes is zero */
static void put_handle(struct record *r, struct buffer handle, bool fill)
{
    unsigned from_aad = handle.bytes[3] & 1;
    uint8_t whole[HANDLE_256] = {0};
    memcpy(whole, handle.bytes, handle.length);
    r->bytes[RING_KIND] = FAULT(KEYRING_KIND_FROM_AAD) ? (uint8_t)from_aad : handle.length == HANDLE_256;
    memcpy(r->bytes + RING_HANDLE, whole, fill ? HANDLE_256 : handle.length);
}

/* of lowest index, or none */
static struct record *first_unused(struct keyring *k)
{
    struct record *highest = NULL;
    for (size_t i = FAULT(KEYRING_FREE_FROM_2) ? 2 : 1; i < k->count; i++) {
        struct record *r = &k->records[i];
        if (r->chain || (FAULT(KEYRING_FREE_BY_ZEROS) && !is_zero(r->bytes, RING_RECORD)))
            continue;
        if (!FAULT(KEYRING_FREE_HIGHEST))
            return r;
        highest = r;
    }
    return highest;
}

static void replace(struct keyring *k, uint8_t *block, struct record *r, struct buffer handle)
{
    struct record *first = k->heads[r->chain - 1];
    uint8_t kind = r->bytes[RING_KIND];
    put_handle(r, handle, !FAULT(KEYRING_REPLACE_KEEPS_FILL));
    if (FAULT(KEYRING_REPLACE_KEEPS_KIND))
        r->bytes[RING_KIND] = kind;
    if (FAULT(KEYRING_REPLACE_MOVES) && first->next == r) {
        put_index(block + 2 * (r->chain - 1), k, r);
        put_index(first->bytes + RING_NEXT, k, r->next);
        put_index(r->bytes + RING_NEXT, k, first);
    }
}

static void insert(struct keyring *k, uint8_t *block, struct record *r, const uint8_t *label, struct buffer handle)
{
    unsigned head = head_of(label);
    struct record *last = k->heads[head];
    while (last && last->next)
        last = last->next;
    put_index(r->bytes + RING_NEXT, k, FAULT(KEYRING_NEXT_0) || FAULT(KEYRING_AT_THE_END) ? NULL : k->heads[head]);
    r->bytes[RING_ZERO] = 0;
    memcpy(r->bytes + RING_LABEL, label, LABEL_SIZE);
    put_handle(r, handle, !FAULT(KEYRING_STALE_FILL));
    put_index(FAULT(KEYRING_AT_THE_END) && last ? last->bytes + RING_NEXT : block + 2 * head, k, r);
}

static bool handle_allowed(size_t length)
{
    return length == HANDLE_128 || length == HANDLE_256 || (FAULT(KEYRING_HANDLE_SIZES) && length > HANDLE_128 && length < HANDLE_256);
}

uint32_t model_add(struct buffer keyring, struct buffer label, struct buffer handle)
{
    static struct keyring k;
    bool label_allowed = label.length == LABEL_SIZE || (FAULT(KEYRING_LABEL_13) && label.length > LABEL_SIZE);
    bool handle_good = handle_allowed(handle.length);
    if (!label_allowed || (!handle_good && !FAULT(KEYRING_HANDLE_LATE)) || !take_apart(keyring, &k))
        return R15_KEYRING;
    struct record *found = find(&k, label.bytes), *unused = first_unused(&k);
    if (!unused && (!found || FAULT(KEYRING_FULL_REPLACE)))
        return R17_FULL;
    if (!handle_good)
        return R15_KEYRING;
    if (found)
        replace(&k, keyring.bytes, found, handle);
    else
        insert(&k, keyring.bytes, unused, label.bytes, handle);
    return 0;
}
