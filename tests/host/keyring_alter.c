#include "keyring_alter.h"

#include <string.h>

#include "chance.h"

/* ---- 15: sizes ---- */

static bool no_bytes(struct altered *a)
{
    a->ring->length = 0;
    return true;
}

static bool one_byte_more(struct altered *a)
{
    a->ring->length++;
    return true;
}

static bool one_byte_less(struct altered *a)
{
    a->ring->length--;
    return true;
}

static bool part_of_a_record(struct altered *a)
{
    a->ring->length += 1 + below(RING_RECORD - 1);
    return true;
}

static bool record_820(struct altered *a)
{
    a->ring->length = RING_LIMIT + RING_RECORD;
    return true;
}

static bool above_limit(struct altered *a)
{
    a->ring->length = RING_LIMIT + RING_RECORD * (1 + below(8));
    return true;
}

/* ---- 15: indices past the end ---- */

/* also such as are inside but for one high bit */
static size_t far_past(size_t count)
{
    switch (below(4)) {
    case 0:
        return 0xFFFF;
    case 1:
        return count + 1;
    case 2:
        return below(count) | (size_t)1 << (count <= 256 ? 8 + below(8) : 10 + below(6));
    default:
        return count + below(0x10000 - count);
    }
}

static bool head_at_end(struct altered *a)
{
    store16(a->ring->bytes + 2 * below(RING_HEADS), a->picture->count);
    return true;
}

static bool head_far(struct altered *a)
{
    store16(a->ring->bytes + 2 * below(RING_HEADS), far_past(a->picture->count));
    return true;
}

/* one of these records, or none where there is none */
static uint8_t *some_record(struct ring *ring, const uint16_t *indices, size_t count)
{
    return count == 0 ? NULL : record_at(ring, indices[below(count)]);
}

static uint8_t *some_used(struct altered *a)
{
    return some_record(a->ring, a->picture->used, a->picture->used_count);
}

static uint8_t *some_unused(struct altered *a)
{
    return some_record(a->ring, a->picture->unused, a->picture->unused_count);
}

static bool set_next(uint8_t *record, size_t next)
{
    if (record)
        store16(record + RING_NEXT, next);
    return record;
}

static bool set_byte(uint8_t *record, size_t at, uint8_t value)
{
    if (record)
        record[at] = value;
    return record;
}

static bool used_next_at_end(struct altered *a)
{
    return set_next(some_used(a), a->picture->count);
}

static bool used_next_far(struct altered *a)
{
    return set_next(some_used(a), far_past(a->picture->count));
}

static bool unused_next_at_end(struct altered *a)
{
    return set_next(some_unused(a), a->picture->count);
}

static bool unused_next_far(struct altered *a)
{
    return set_next(some_unused(a), far_past(a->picture->count));
}

/* ---- 15: a record reached twice ---- */

/* the place among the used of one that is the last of its chain; false where no chain has as many */
static bool some_end(const struct picture *p, size_t least, size_t *end)
{
    for (int tries = 0; p->used_count && tries < 8; tries++) {
        size_t i = below(p->used_count), first = i;
        while (i + 1 < p->used_count && p->chains[p->used[i + 1]] == p->chains[p->used[i]])
            i++;
        while (first > 0 && p->chains[p->used[first - 1]] == p->chains[p->used[i]])
            first--;
        *end = i;
        if (i - first + 1 >= least)
            return true;
    }
    return false;
}

static bool self_loop(struct altered *a)
{
    const struct picture *p = a->picture;
    size_t end;
    return some_end(p, 1, &end) && set_next(record_at(a->ring, p->used[end]), p->used[end]);
}

static bool cycle_of_two(struct altered *a)
{
    const struct picture *p = a->picture;
    size_t end;
    return some_end(p, 2, &end) && set_next(record_at(a->ring, p->used[end]), p->used[end - 1]);
}

static bool cycle_to_first(struct altered *a)
{
    const struct picture *p = a->picture;
    size_t end;
    return some_end(p, 3, &end) && set_next(record_at(a->ring, p->used[end]), load16(a->ring->bytes + 2 * (p->chains[p->used[end]] - 1)));
}

/* the end of a chain goes on with a record of another */
static bool joined(struct altered *a)
{
    const struct picture *p = a->picture;
    size_t end;
    if (!some_end(p, 1, &end))
        return false;
    unsigned other = p->used[below(p->used_count)];
    return p->chains[other] != p->chains[p->used[end]] && set_next(record_at(a->ring, p->used[end]), other);
}

static bool equal_heads(struct altered *a)
{
    const struct picture *p = a->picture;
    if (p->used_count == 0)
        return false;
    size_t from = p->chains[p->used[below(p->used_count)]] - 1u, to = (from + 1 + below(RING_HEADS - 1)) % RING_HEADS;
    memcpy(a->ring->bytes + 2 * to, a->ring->bytes + 2 * from, 2);
    return true;
}

/* ---- 15: bytes that are to be zero, and kinds ---- */

static uint8_t not_zero(void)
{
    return one_in(2) ? 1 : (uint8_t)(1 + below(255));
}

static bool tail_first(struct altered *a)
{
    return set_byte(a->ring->bytes, RING_TAIL, not_zero());
}

static bool tail_last(struct altered *a)
{
    return set_byte(a->ring->bytes, RING_RECORD - 1, not_zero());
}

static bool tail_between(struct altered *a)
{
    return set_byte(a->ring->bytes, RING_TAIL + below(RING_RECORD - RING_TAIL), not_zero());
}

/* above 1, often by one high bit */
static uint8_t no_kind(void)
{
    return one_in(4) ? 255 : one_in(2) ? (uint8_t)(2 + below(254)) : (uint8_t)(2 << below(7) | below(2));
}

static bool used_kind_2(struct altered *a)
{
    return set_byte(some_used(a), RING_KIND, 2);
}

static bool used_kind_far(struct altered *a)
{
    return set_byte(some_used(a), RING_KIND, no_kind());
}

static bool unused_kind_2(struct altered *a)
{
    return set_byte(some_unused(a), RING_KIND, 2);
}

static bool unused_kind_far(struct altered *a)
{
    return set_byte(some_unused(a), RING_KIND, no_kind());
}

static bool used_zero_byte(struct altered *a)
{
    return set_byte(some_used(a), RING_ZERO, not_zero());
}

static bool unused_zero_byte(struct altered *a)
{
    return set_byte(some_unused(a), RING_ZERO, not_zero());
}

/* ---- what is no reason ---- */

static bool unused_to_itself(struct altered *a)
{
    uint8_t *record = some_unused(a);
    return record && set_next(record, (size_t)(record - a->ring->bytes) / RING_RECORD);
}

static bool unused_to_used(struct altered *a)
{
    return a->picture->used_count && set_next(some_unused(a), a->picture->used[below(a->picture->used_count)]);
}

/* a label that a search for it must not find there, and a handle of the longer kind */
static bool left_over(struct altered *a)
{
    uint8_t *record = some_unused(a);
    if (!record)
        return false;
    label_numbered(below(LABELS), record + RING_LABEL);
    any_bytes(record + RING_HANDLE, HANDLE_256);
    record[RING_KIND] = one_in(2);
    memcpy(a->label, record + RING_LABEL, LABEL_SIZE);
    return true;
}

static bool fill(struct altered *a)
{
    uint8_t *record = some_used(a);
    if (!record || record[RING_KIND] != 0)
        return false;
    record[RING_HANDLE + (one_in(2) ? HANDLE_128 + below(HANDLE_256 - HANDLE_128) : HANDLE_256 - 1)] = not_zero();
    memcpy(a->label, record + RING_LABEL, LABEL_SIZE);
    return true;
}

static bool wrong_chain(struct altered *a)
{
    uint8_t *record = some_used(a);
    if (!record)
        return false;
    record[RING_LABEL] ^= (uint8_t)(1 + below(15));
    memcpy(a->label, record + RING_LABEL, LABEL_SIZE);
    return true;
}

/* a record and another behind it on its chain */
static bool same_label(struct altered *a)
{
    size_t end;
    if (!some_end(a->picture, 2, &end))
        return false;
    memcpy(a->label, record_at(a->ring, a->picture->used[end]) + RING_LABEL, LABEL_SIZE);
    memcpy(record_at(a->ring, a->picture->used[end - 1]) + RING_LABEL, a->label, LABEL_SIZE);
    return true;
}

/* as a host would take a label out */
static bool taken_out(struct altered *a)
{
    const struct picture *p = a->picture;
    if (p->used_count == 0)
        return false;
    size_t place = below(p->used_count), index = p->used[place];
    bool first = place == 0 || p->chains[p->used[place - 1]] != p->chains[index];
    uint8_t *stored = first ? a->ring->bytes + 2 * (p->chains[index] - 1) : record_at(a->ring, p->used[place - 1]) + RING_NEXT;
    memcpy(a->label, record_at(a->ring, index) + RING_LABEL, LABEL_SIZE);
    memcpy(stored, record_at(a->ring, index) + RING_NEXT, 2);
    return true;
}

const struct alteration alterations[] = {
    {true, "no bytes", no_bytes},
    {true, "one byte more than whole records", one_byte_more},
    {true, "one byte less than whole records", one_byte_less},
    {true, "a part of a record behind whole ones", part_of_a_record},
    {true, "820 records", record_820},
    {true, "more than 819 records", above_limit},
    {true, "a head that is the number of records", head_at_end},
    {true, "a head far past the end", head_far},
    {true, "a used record's next that is the number of records", used_next_at_end},
    {true, "a used record's next far past the end", used_next_far},
    {true, "an unused record's next that is the number of records", unused_next_at_end},
    {true, "an unused record's next far past the end", unused_next_far},
    {true, "a used record whose next is itself", self_loop},
    {true, "a chain that goes back to the record before", cycle_of_two},
    {true, "a chain that goes back to its first record", cycle_to_first},
    {true, "a chain that goes on with a record of another", joined},
    {true, "two equal heads", equal_heads},
    {true, "record 0, byte 32 not zero", tail_first},
    {true, "record 0, byte 79 not zero", tail_last},
    {true, "record 0, one of bytes 32 to 79 not zero", tail_between},
    {true, "kind 2 in a used record", used_kind_2},
    {true, "a kind above 1 in a used record", used_kind_far},
    {true, "kind 2 in an unused record", unused_kind_2},
    {true, "a kind above 1 in an unused record", unused_kind_far},
    {true, "the zero byte of a used record", used_zero_byte},
    {true, "the zero byte of an unused record", unused_zero_byte},
    {false, "an unused record whose next is itself", unused_to_itself},
    {false, "an unused record whose next is a used one", unused_to_used},
    {false, "an unused record with label and handle left over", left_over},
    {false, "bytes behind a handle of 48", fill},
    {false, "a label on the wrong chain", wrong_chain},
    {false, "the same label twice on a chain", same_label},
    {false, "a record taken out of its chain", taken_out},
};
const int alteration_count = sizeof alterations / sizeof *alterations;
