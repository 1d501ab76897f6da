#include "keyring_make.h"

#include <string.h>

#include "chance.h"

uint8_t *record_at(struct ring *ring, size_t index)
{
    return ring->bytes + RING_RECORD * index;
}

unsigned load16(const uint8_t *stored)
{
    return stored[0] | (unsigned)stored[1] << 8;
}

void store16(uint8_t *stored, size_t value)
{
    stored[0] = (uint8_t)value;
    stored[1] = (uint8_t)(value >> 8);
}

void draw(const struct ring *ring, struct picture *p)
{
    p->count = ring->length / RING_RECORD;
    p->used_count = p->unused_count = 0;
    memset(p->chains, 0, p->count);
    for (unsigned h = 0; h < RING_HEADS; h++)
        for (unsigned i = load16(ring->bytes + 2 * h); i != 0; i = load16(ring->bytes + RING_RECORD * i)) {
            p->used[p->used_count++] = (uint16_t)i;
            p->chains[i] = (uint8_t)(h + 1);
        }
    for (size_t i = 1; i < p->count; i++)
        if (!p->chains[i])
            p->unused[p->unused_count++] = (uint16_t)i;
}

/* Chains 0, 1, 5, 8, 13 and 15: 0 and 8, 5 and 13 are alike in their low three bits. */
void label_numbered(size_t number, uint8_t label[LABEL_SIZE])
{
    static const uint8_t firsts[] = {0x00, 0x05, 0x50, 0x0F, 0xF5, 0x08, 0x0D, 0x21};
    size_t kind = number / sizeof firsts;
    memset(label, 0, LABEL_SIZE);
    label[0] = firsts[number % sizeof firsts];
    if (kind == 1)
        label[LABEL_SIZE - 1] = 1;
    if (kind == 2)
        label[1] = 0x80;
    if (kind == 3)
        memset(label + 1, 'a', LABEL_SIZE - 1);
    if (kind >= 4)
        store16(label + 6, number);
}

void some_handle(uint8_t handle[HANDLE_256])
{
    any_bytes(handle, HANDLE_256);
    if (one_in(2))
        handle[3] = one_in(2);
}

void make_empty(struct ring *ring, size_t count)
{
    memset(ring->bytes, 0, ring->length);
    ring->length = RING_RECORD * count;
}

static void shuffle(uint16_t *indices, size_t count)
{
    for (size_t i = count; i > 1; i--) {
        size_t other = below(i);
        uint16_t kept = indices[i - 1];
        indices[i - 1] = indices[other];
        indices[other] = kept;
    }
}

/* What it still holds says nothing: any next index inside, any kind there is. */
static void leave_over(uint8_t *record, size_t count)
{
    any_bytes(record, RING_RECORD);
    store16(record + RING_NEXT, below(count));
    record[RING_KIND] = one_in(2);
    record[RING_ZERO] = 0;
    label_numbered(below(LABELS), record + RING_LABEL);
}

/* Behind the record that the last index of its chain is stored in, or before all others. */
static void put_on_chain(struct ring *ring, size_t index, const uint8_t *label)
{
    uint8_t *record = record_at(ring, index), *stored = ring->bytes + 2 * (label[0] & 15);
    if (one_in(2)) {
        memcpy(record + RING_NEXT, stored, 2);
        store16(stored, index);
        return;
    }
    while (load16(stored) != 0)
        stored = record_at(ring, load16(stored)) + RING_NEXT;
    store16(stored, index);
}

void make_by_hand(struct ring *ring, size_t count)
{
    uint16_t indices[RING_RECORDS];
    make_empty(ring, count);
    for (size_t i = 1; i < count; i++)
        indices[i - 1] = (uint16_t)i;
    shuffle(indices, count - 1);
    bool one_chain = one_in(count > 255 ? 2 : 8);
    size_t used = one_in(3) ? count - 1 : below(count);
    for (size_t i = 0; i < used; i++) {
        uint8_t *record = record_at(ring, indices[i]);
        record[RING_KIND] = one_in(2);
        label_numbered(i, record + RING_LABEL);
        if (one_chain)
            record[RING_LABEL] |= 15;
        some_handle(record + RING_HANDLE);
        if (record[RING_KIND] == 0)
            memset(record + RING_HANDLE + HANDLE_128, 0, HANDLE_256 - HANDLE_128);
        put_on_chain(ring, indices[i], record + RING_LABEL);
    }
    for (size_t i = used; i < count - 1; i++)
        if (one_in(3))
            leave_over(record_at(ring, indices[i]), count);
}
