#include "keyring.h"

#include <inttypes.h>
#include <stdio.h>
#include <string.h>

#include "chance.h"
#include "keyring_alter.h"
#include "keyring_coverage.h"
#include "lend.h"

/* a shorter run may miss rare events */
enum { KEYRINGS_FOR_COVERAGE = 80000, BESIDE_MOST = 9 };

static struct ring ring, spoiled;
static struct picture picture; /* of the ring */
static uint8_t about[LABEL_SIZE]; /* a label that the last alteration was about */
static uint64_t calls;

/* ---- one call ---- */

/* Whatever the model says: a label that was just added gives this handle. */
static const char *found_differs(const struct ring_call *added, const struct ring_run *lookup)
{
    uint8_t handle[HANDLE_256] = {0};
    memcpy(handle, added->handle, added->handle_length);
    if (lookup->number)
        return "a lookup does not find what was added";
    if (lookup->kind.buffer.bytes[0] != (added->handle_length == HANDLE_256))
        return "a lookup gives another kind than was added";
    return memcmp(lookup->handle.buffer.bytes, handle, sizeof handle) == 0 ? NULL : "a lookup gives another handle than was added";
}

/* The library's answer goes to *number, and what an add leaves to the ring where that was lent. */
static const char *make_call(const struct ring_call *c, const struct ring_call *added, uint32_t *number)
{
    struct ring_run library, model;
    calls++;
    ring_run_library(c, &library);
    ring_run_model(c, &model);
    const char *differs = ring_difference(c, &library, &model);
    if (!differs && added)
        differs = found_differs(added, &library);
    if (differs) {
        printf("difference at call %" PRIu64 ": keyring %s: %s\n", calls, c->adds ? "add" : "lookup", differs);
        ring_report(c, &library, &model);
    }
    *number = library.number;
    if (!differs && c->ring == &ring && ring.length)
        memcpy(ring.bytes, library.ring.buffer.bytes, ring.length);
    ring_run_free(&library);
    ring_run_free(&model);
    return differs;
}

/* now and then the last record of all, if it is used, or that at the end of the last chain */
static size_t some_used(void)
{
    if (picture.chains[picture.count - 1] && one_in(8))
        return picture.count - 1;
    return picture.used[one_in(8) ? picture.used_count - 1 : below(picture.used_count)];
}

static void choose_label(uint8_t *label)
{
    label_numbered(below(LABELS), label);
    if (picture.used_count && one_in(2))
        memcpy(label, record_at(&ring, some_used()) + RING_LABEL, LABEL_SIZE);
    else if (one_in(2))
        memcpy(label, about, LABEL_SIZE);
    if (one_in(8))
        label[one_in(2) ? LABEL_SIZE - 1 : below(LABEL_SIZE)] ^= (uint8_t)(1 << below(8));
}

static struct ring_call some_call(const struct ring *lent, bool adds)
{
    struct ring_call c = {.adds = adds, .ring = lent, .label_length = LABEL_SIZE, .handle_length = one_in(2) ? HANDLE_128 : HANDLE_256};
    any_bytes(c.label, sizeof c.label);
    choose_label(c.label);
    any_bytes(c.handle, sizeof c.handle);
    some_handle(c.handle);
    c.null_if_empty = one_in(2);
    c.beside = one_in(2) ? 0 : 1 + below(BESIDE_MOST);
    if (lends_guarded())
        c.beside = 0;
    return c;
}

/* ---- calls on a keyring ---- */

/* on the ring, which is a keyring; an add that is done is looked up at once */
static const char *call_on_keyring(struct ring_call *c)
{
    static struct ring before;
    uint32_t number, found;
    c->meant_keyring = true;
    before.length = ring.length;
    memcpy(before.bytes, ring.bytes, ring.length);
    const char *differs = make_call(c, NULL, &number);
    if (differs)
        return differs;
    struct ring_call was = *c;
    was.ring = &before;
    cover_ring_call(&was, &picture, number);
    if (!c->adds || number)
        return NULL;
    struct ring_call lookup = *c;
    lookup.adds = false;
    return make_call(&lookup, c, &found);
}

static const char *call_some(size_t count)
{
    const char *differs = NULL;
    for (size_t i = 0; !differs && i < count; i++) {
        draw(&ring, &picture);
        struct ring_call c = some_call(&ring, !one_in(3));
        differs = call_on_keyring(&c);
    }
    return differs;
}

/* Every record takes a label, the next one finds none free. */
static const char *fill_up(void)
{
    const char *differs = NULL;
    size_t count = ring.length / RING_RECORD;
    for (size_t i = 0; !differs && i < count; i++) {
        draw(&ring, &picture);
        struct ring_call c = some_call(&ring, true);
        label_numbered(i, c.label);
        differs = call_on_keyring(&c);
    }
    return differs;
}

/* ---- calls that 15 refuses ---- */

static const char *call_refused(struct ring_call *c, int alteration)
{
    uint32_t number;
    c->meant_refused = true;
    const char *differs = make_call(c, NULL, &number);
    if (!differs)
        cover_ring_refused(c, alteration);
    return differs;
}

static const char *call_with_lengths(void)
{
    static const size_t labels[] = {0, 11, 13}, handles[] = {0, 47, 49, 63, 65};
    struct ring_call c = some_call(&ring, !one_in(3));
    bool label = !c.adds || one_in(2), both = c.adds && one_in(4);
    if (label || both)
        c.label_length = labels[below(sizeof labels / sizeof *labels)];
    if (!label || both)
        c.handle_length = handles[below(sizeof handles / sizeof *handles)];
    return call_refused(&c, -1);
}

static const char *call_spoiled(int alteration)
{
    const char *differs = NULL;
    for (int adds = 0; !differs && adds < 2; adds++) {
        struct ring_call c = some_call(&spoiled, adds);
        differs = call_refused(&c, alteration);
    }
    return differs;
}

/* ---- a keyring ---- */

static void copy_ring(struct ring *to, const struct ring *from)
{
    memset(to->bytes, 0, to->length);
    to->length = from->length;
    memcpy(to->bytes, from->bytes, from->length);
}

/* one that the ring has a place for */
static const char *alter(bool refused)
{
    draw(&ring, &picture);
    copy_ring(&spoiled, &ring);
    for (int tries = 0; tries < 4; tries++) {
        int chosen = (int)below((uint64_t)alteration_count);
        struct altered a = {.ring = refused ? &spoiled : &ring, .picture = &picture};
        memcpy(a.label, about, LABEL_SIZE);
        if (alterations[chosen].refused != refused || !alterations[chosen].apply(&a))
            continue;
        memcpy(about, a.label, LABEL_SIZE);
        if (refused)
            return call_spoiled(chosen);
        cover_ring_altered(chosen);
        return NULL;
    }
    return NULL;
}

static size_t some_count(void)
{
    if (one_in(150))
        return one_in(2) ? RING_RECORDS : 257 + below(RING_RECORDS - 257);
    return one_in(12) ? 1 : one_in(3) ? 1 + below(40) : 2 + below(8);
}

static const char *one_keyring(void)
{
    size_t count = some_count();
    bool full = one_in(10) && (count <= 40 || one_in(4)); /* a large one takes long */
    any_bytes(about, sizeof about);
    if (full || one_in(2))
        make_empty(&ring, count);
    else
        make_by_hand(&ring, count);
    const char *differs = full ? fill_up() : call_some(below(8) + (count > 255 ? 12 : 0));
    for (int turn = 0; !differs && turn < 3; turn++) {
        differs = alter(true);
        if (!differs && one_in(3))
            differs = call_with_lengths();
        if (!differs)
            differs = alter(false);
        if (!differs)
            differs = call_some(1 + below(3));
    }
    return differs;
}

bool keyring_runs_alike(uint64_t seed, uint64_t keyrings)
{
    chance_seed(seed);
    for (uint64_t n = 1; n <= keyrings; n++)
        if (one_keyring()) {
            printf("again: build/test_host --seed %" PRIu64 " --calls 0 --keyrings %" PRIu64 "%s\n", seed, n, lends_guarded() ? " --guarded" : "");
            return false;
        }
    print_ring_coverage();
    printf("\n%" PRIu64 " keyrings, %" PRIu64 " calls, no difference\n", keyrings, calls);
    return keyrings < KEYRINGS_FOR_COVERAGE || ring_coverage_is_full();
}
