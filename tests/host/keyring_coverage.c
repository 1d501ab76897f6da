#include "keyring_coverage.h"

#include <stdio.h>
#include <string.h>

#include "keyring_alter.h"

/* each occurs in every long run */
#define EVENTS(X)                                                                        \
    X(FOUND_128, "lookup of a handle of 48 bytes")                                       \
    X(FOUND_256, "lookup of a handle of 64 bytes")                                       \
    X(FOUND_BEHIND, "lookup of a label behind others of its chain")                      \
    X(FOUND_TWICE, "lookup of a label that its chain has twice")                         \
    X(FOUND_FILL, "lookup of a handle of 48 bytes with others behind it")                \
    X(FOUND_ZERO_LABEL, "lookup of a label of zeros that is there")                      \
    X(FOUND_ABOVE_255, "lookup of a record above 255")                                   \
    X(FOUND_818, "lookup of record 818")                                                 \
    X(FOUND_FAR, "lookup of a label behind 800 others of its chain")                     \
    X(ABSENT_EMPTY, "lookup in a keyring of zeros")                                      \
    X(ABSENT_ZERO_LABEL, "lookup of a label of zeros that is not there")                 \
    X(ABSENT_HEAD_0, "lookup in a chain without records, beside others")                 \
    X(ABSENT_WALKED, "lookup that passes records to the end of a chain")                 \
    X(ABSENT_LAST_BYTE, "lookup of a label but for its last byte there")                 \
    X(ABSENT_OTHER_CHAIN, "lookup of a label that only another chain has")               \
    X(ABSENT_UNUSED, "lookup of a label that only a record on no chain has")             \
    X(ABSENT_80, "lookup in 80 bytes")                                                   \
    X(REPLACED_48_64, "replaced, 48 bytes by 64")                                        \
    X(REPLACED_64_48, "replaced, 64 bytes by 48")                                        \
    X(REPLACED_BEHIND, "replaced behind others of the chain")                            \
    X(REPLACED_TWICE, "replaced where the chain has the label twice")                    \
    X(REPLACED_FULL, "replaced in a full keyring")                                       \
    X(NEW_FIRST, "new label on a chain without records")                                 \
    X(NEW_BEFORE, "new label before others of its chain")                                \
    X(NEW_BELOW_USED, "new label in a free record below used ones")                      \
    X(NEW_LEFT_OVER, "new label in a record that held another")                          \
    X(NEW_LEFT_OVER_FILL, "new label with 48 bytes where 64 were left over")             \
    X(NEW_SELF_LOOP, "new label in a record whose next was itself")                      \
    X(NEW_OTHER_CHAIN, "new label that another chain has")                               \
    X(NEW_ABOVE_255, "new label in a record above 255")                                  \
    X(NEW_LAST_FREE, "new label in the last free record")                                \
    X(NEW_818, "new label as the 818th")                                                 \
    X(FULL, "no record free")                                                            \
    X(FULL_80, "no record free in 80 bytes")                                             \
    X(FULL_819, "no record free in 65,520 bytes")                                        \
    X(OTHER_TYPE, "handles added whose AAD has the type of the other size")              \
    X(HEAD_1_ABOVE_1, "keyrings whose head 1 is above 1")                                \
    X(HEAD_1_ABOVE_255, "keyrings whose head 1 is above 255")                            \
    X(LABEL_0, "a label of no bytes")                                                    \
    X(LABEL_11, "a label of 11 bytes")                                                   \
    X(LABEL_13, "a label of 13 bytes")                                                   \
    X(HANDLE_0, "a handle of no bytes")                                                  \
    X(HANDLE_47, "a handle of 47 bytes")                                                 \
    X(HANDLE_49, "a handle of 49 bytes")                                                 \
    X(HANDLE_63, "a handle of 63 bytes")                                                 \
    X(HANDLE_65, "a handle of 65 bytes")                                                 \
    X(ARGUMENT_FULL, "an argument's length, on a full keyring")                          \
    X(NULL_KEYRING, "a null pointer for the keyring")                                    \
    X(NULL_LABEL, "a null pointer for the label")                                        \
    X(NULL_HANDLE, "a null pointer for the handle")

#define EVENT_NAME(name, text) EVENT_##name,
#define EVENT_TEXT(name, text) text,
enum event { EVENTS(EVENT_NAME) EVENT_COUNT };
static const char *const event_texts[] = {EVENTS(EVENT_TEXT)};

enum { ALTERATIONS_MOST = 64 };
static unsigned long events[EVENT_COUNT], altered[ALTERATIONS_MOST][2], heads_past[RING_HEADS][2];

static void note(bool occurred, enum event event)
{
    events[event] += occurred;
}

/* ---- where a label is ---- */

struct place {
    size_t index;   /* of the first record of its chain with it, 0 for none */
    size_t before;  /* records of its chain before that, or all of them */
    size_t matches; /* of its chain */
    bool elsewhere, unused, nearly; /* on another chain; in a record on none; on its chain but for the last byte */
};

static bool has(const struct ring_call *c, size_t index, size_t length)
{
    return memcmp(c->ring->bytes + RING_RECORD * index + RING_LABEL, c->label, length) == 0;
}

static struct place look(const struct ring_call *c, const struct picture *p)
{
    struct place place = {0};
    for (size_t n = 0; n < p->used_count; n++) {
        size_t i = p->used[n];
        bool own = p->chains[i] == (c->label[0] & 15) + 1, is = has(c, i, LABEL_SIZE);
        place.elsewhere |= is && !own;
        place.nearly |= own && !is && has(c, i, LABEL_SIZE - 1);
        place.matches += is && own;
        if (is && own && !place.index)
            place.index = i;
        place.before += own && !place.index;
    }
    for (size_t n = 0; n < p->unused_count; n++)
        place.unused |= has(c, p->unused[n], LABEL_SIZE);
    return place;
}

static bool is_zero(const uint8_t *bytes, size_t length)
{
    for (size_t i = 0; i < length; i++)
        if (bytes[i])
            return false;
    return true;
}

static bool has_fill(const uint8_t *record)
{
    return !is_zero(record + RING_HANDLE + HANDLE_128, HANDLE_256 - HANDLE_128);
}

/* ---- calls ---- */

static void cover_found(const struct ring_call *c, const struct place *place)
{
    const uint8_t *record = c->ring->bytes + RING_RECORD * place->index;
    bool short_one = record[RING_KIND] == 0;
    note(short_one, EVENT_FOUND_128);
    note(!short_one, EVENT_FOUND_256);
    note(place->before > 0, EVENT_FOUND_BEHIND);
    note(place->matches > 1, EVENT_FOUND_TWICE);
    note(short_one && has_fill(record), EVENT_FOUND_FILL);
    note(is_zero(c->label, LABEL_SIZE), EVENT_FOUND_ZERO_LABEL);
    note(place->index > 255, EVENT_FOUND_ABOVE_255);
    note(place->index == RING_RECORDS - 1, EVENT_FOUND_818);
    note(place->before >= 800, EVENT_FOUND_FAR);
}

static void cover_absent(const struct ring_call *c, const struct picture *p, const struct place *place)
{
    note(p->count > 1 && is_zero(c->ring->bytes, c->ring->length), EVENT_ABSENT_EMPTY);
    note(is_zero(c->label, LABEL_SIZE), EVENT_ABSENT_ZERO_LABEL);
    note(place->before == 0 && p->used_count > 0, EVENT_ABSENT_HEAD_0);
    note(place->before > 1, EVENT_ABSENT_WALKED);
    note(place->nearly, EVENT_ABSENT_LAST_BYTE);
    note(place->elsewhere, EVENT_ABSENT_OTHER_CHAIN);
    note(place->unused && !place->elsewhere, EVENT_ABSENT_UNUSED);
    note(p->count == 1, EVENT_ABSENT_80);
}

static void cover_replaced(const struct ring_call *c, const struct picture *p, const struct place *place)
{
    bool was_long = c->ring->bytes[RING_RECORD * place->index + RING_KIND], is_long = c->handle_length == HANDLE_256;
    note(!was_long && is_long, EVENT_REPLACED_48_64);
    note(was_long && !is_long, EVENT_REPLACED_64_48);
    note(place->before > 0, EVENT_REPLACED_BEHIND);
    note(place->matches > 1, EVENT_REPLACED_TWICE);
    note(p->unused_count == 0, EVENT_REPLACED_FULL);
}

static void cover_new(const struct ring_call *c, const struct picture *p, const struct place *place)
{
    size_t index = p->unused[0];
    const uint8_t *record = c->ring->bytes + RING_RECORD * index;
    note(place->before == 0, EVENT_NEW_FIRST);
    note(place->before > 0, EVENT_NEW_BEFORE);
    note(index <= p->used_count, EVENT_NEW_BELOW_USED);
    note(!is_zero(record + RING_LABEL, LABEL_SIZE), EVENT_NEW_LEFT_OVER);
    note(has_fill(record) && c->handle_length == HANDLE_128, EVENT_NEW_LEFT_OVER_FILL);
    note(load16(record + RING_NEXT) == index, EVENT_NEW_SELF_LOOP);
    note(place->elsewhere, EVENT_NEW_OTHER_CHAIN);
    note(index > 255, EVENT_NEW_ABOVE_255);
    note(p->unused_count == 1, EVENT_NEW_LAST_FREE);
    note(p->used_count == RING_RECORDS - 2, EVENT_NEW_818);
}

static void cover_full(const struct picture *p)
{
    note(p->count > 1, EVENT_FULL);
    note(p->count == 1, EVENT_FULL_80);
    note(p->count == RING_RECORDS, EVENT_FULL_819);
}

void cover_ring_call(const struct ring_call *c, const struct picture *before, uint32_t number)
{
    struct place place = look(c, before);
    unsigned head_1 = load16(c->ring->bytes + 2);
    note(head_1 > 1, EVENT_HEAD_1_ABOVE_1);
    note(head_1 > 255, EVENT_HEAD_1_ABOVE_255);
    if (number == R17_FULL)
        cover_full(before);
    else if (number == R16_NO_LABEL)
        cover_absent(c, before, &place);
    else if (!c->adds)
        cover_found(c, &place);
    else if (place.index)
        cover_replaced(c, before, &place);
    else
        cover_new(c, before, &place);
    note(c->adds && !number && (c->handle[3] & 15) == (c->handle_length == HANDLE_128), EVENT_OTHER_TYPE);
}

/* ---- 15 ---- */

static void cover_arguments(const struct ring_call *c)
{
    static const struct {
        size_t length;
        enum event event;
    } labels[] = {{0, EVENT_LABEL_0}, {11, EVENT_LABEL_11}, {13, EVENT_LABEL_13}},
      handles[] = {{0, EVENT_HANDLE_0}, {47, EVENT_HANDLE_47}, {49, EVENT_HANDLE_49}, {63, EVENT_HANDLE_63}, {65, EVENT_HANDLE_65}};
    struct picture p;
    draw(c->ring, &p);
    note(p.unused_count == 0, EVENT_ARGUMENT_FULL);
    for (size_t i = 0; i < sizeof labels / sizeof *labels; i++)
        note(c->label_length == labels[i].length, labels[i].event);
    for (size_t i = 0; i < sizeof handles / sizeof *handles; i++)
        note(c->adds && c->label_length == LABEL_SIZE && c->handle_length == handles[i].length, handles[i].event);
}

void cover_ring_refused(const struct ring_call *c, int alteration)
{
    size_t count = c->ring->length / RING_RECORD;
    note(c->ring->length == 0 && c->null_if_empty, EVENT_NULL_KEYRING);
    note(c->label_length == 0 && c->null_if_empty, EVENT_NULL_LABEL);
    note(c->adds && c->handle_length == 0 && c->null_if_empty, EVENT_NULL_HANDLE);
    if (alteration < 0) {
        cover_arguments(c);
        return;
    }
    altered[alteration][c->adds]++;
    for (int h = 0; count > 0 && h < RING_HEADS; h++) {
        unsigned head = load16(c->ring->bytes + 2 * h);
        heads_past[h][0] += head == count;
        heads_past[h][1] += head > count;
    }
}

void cover_ring_altered(int alteration)
{
    altered[alteration][0]++;
}

/* ---- what is said ---- */

void print_ring_coverage(void)
{
    printf("\n%-65s %10s %10s\n", "keyrings refused", "lookups", "adds");
    for (int i = 0; i < alteration_count; i++)
        if (alterations[i].refused)
            printf("  %-63s %10lu %10lu\n", alterations[i].text, altered[i][0], altered[i][1]);
    printf("\n%-65s %10s %10s\n", "heads past the end", "just", "far");
    for (int h = 0; h < RING_HEADS; h++)
        printf("  head %-58d %10lu %10lu\n", h, heads_past[h][0], heads_past[h][1]);
    printf("\nkeyrings altered and not refused\n");
    for (int i = 0; i < alteration_count; i++)
        if (!alterations[i].refused)
            printf("  %-63s %10lu\n", alterations[i].text, altered[i][0]);
    printf("\nevents on keyrings\n");
    for (int i = 0; i < EVENT_COUNT; i++)
        printf("  %-63s %10lu\n", event_texts[i], events[i]);
}

static bool need(unsigned long count, const char *what, const char *text)
{
    if (count == 0)
        printf("never occurred: %s: %s\n", what, text);
    return count != 0;
}

bool ring_coverage_is_full(void)
{
    bool full = true;
    for (int i = 0; i < alteration_count; i++) {
        full &= need(altered[i][0], "keyring altered", alterations[i].text);
        full &= !alterations[i].refused || need(altered[i][1], "add to a keyring altered", alterations[i].text);
    }
    for (int h = 0; h < RING_HEADS; h++) {
        char text[32];
        snprintf(text, sizeof text, "head %d", h);
        full &= need(heads_past[h][0], "just past the end", text) && need(heads_past[h][1], "far past the end", text);
    }
    for (int i = 0; i < EVENT_COUNT; i++)
        full &= need(events[i], "event on keyrings", event_texts[i]);
    return full;
}
