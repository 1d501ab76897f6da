#include "keyring_call.h"

#include <stdio.h>
#include <string.h>

#include "compare.h"
#include "faults.h"
#include "keylocker.h"
#include "lend.h"

/* what stands beside the buffers, and where a lookup may write */
enum { BESIDE = 0xB5, BEFORE = 0xA5 };

/* ---- lending ---- */

static struct lent lend_between(const struct ring_call *c, const char *name, const uint8_t *bytes, size_t length)
{
    struct lent lent = {NULL, {NULL, length}};
    if (length == 0 && c->null_if_empty)
        return lent;
    lent.room = lend(name, NULL, length + 2 * c->beside);
    memset(lent.room, BESIDE, c->beside);
    lent.buffer.bytes = lent.room + c->beside;
    if (bytes)
        memcpy(lent.buffer.bytes, bytes, length);
    else
        memset(lent.buffer.bytes, BEFORE, length);
    memset(lent.buffer.bytes + length, BESIDE, c->beside);
    return lent;
}

static bool beside_is_kept(const struct ring_call *c, const struct lent *lent)
{
    for (size_t i = 0; lent->room && i < c->beside; i++)
        if (lent->room[i] != BESIDE || lent->buffer.bytes[lent->buffer.length + i] != BESIDE)
            return false;
    return true;
}

static bool all_beside_is_kept(const struct ring_call *c, const struct ring_run *run)
{
    return beside_is_kept(c, &run->ring) && beside_is_kept(c, &run->label) && beside_is_kept(c, &run->handle) && beside_is_kept(c, &run->kind);
}

static void lend_all(const struct ring_call *c, bool library, struct ring_run *run)
{
    run->ring = lend_between(c, library ? "keyring" : NULL, c->ring->bytes, c->ring->length);
    run->label = lend_between(c, library ? "label" : NULL, c->label, c->label_length);
    run->handle = lend_between(c, library ? "handle" : NULL, c->adds ? c->handle : NULL, c->adds ? c->handle_length : HANDLE_256);
    run->kind = lend_between(c, library ? "kind" : NULL, NULL, 1);
    run->number = UNANSWERED;
    run->touched = NULL;
}

void ring_run_free(struct ring_run *run)
{
    take_back(run->ring.room);
    take_back(run->label.room);
    take_back(run->handle.room);
    take_back(run->kind.room);
}

/* ---- the calls ---- */

/* What the comparison, valgrind and guards have to see, done in the library's stead. */
static void misuse(const struct ring_call *c, struct ring_run *run)
{
    struct buffer ring = run->ring.buffer, label = run->label.buffer, handle = run->handle.buffer;
    if (FAULT(KEYRING_REFUSED_WRITES) && run->number && ring.length)
        ring.bytes[ring.length - 1] ^= 1;
    if (FAULT(KEYRING_REFUSED_WRITES_KIND) && run->number && !c->adds)
        run->kind.buffer.bytes[0] = 0;
    if (FAULT(KEYRING_REFUSED_WRITES_HANDLE) && run->number && !c->adds)
        handle.bytes[handle.length - 1] = 0;
    if (FAULT(KEYRING_LOOKUP_WRITES) && !c->adds && ring.length)
        ring.bytes[ring.length - 1] ^= 1;
    if (FAULT(KEYRING_LABEL_WRITTEN) && label.length)
        label.bytes[label.length - 1] ^= 1;
    if (FAULT(KEYRING_HANDLE_WRITTEN) && c->adds && handle.length)
        handle.bytes[0] ^= 1;
    if (FAULT(KEYRING_WRITES_BEHIND) && c->beside)
        handle.bytes[handle.length] = 0;
    misuse_lent(ring, FAULT(BEHIND_KEYRING), FAULT(BEFORE_KEYRING), (FAULT(REWRITES_KEYRING) && run->number) || (FAULT(REWRITES_KEYRING_LOOKUP) && !c->adds));
    misuse_lent(label, FAULT(BEHIND_LABEL), FAULT(BEFORE_LABEL), FAULT(REWRITES_LABEL));
    misuse_lent(handle, FAULT(BEHIND_ADDED) && c->adds, FAULT(BEFORE_ADDED) && c->adds,
                (FAULT(REWRITES_ADDED) && c->adds) || (FAULT(REWRITES_FOUND) && !c->adds && run->number));
    misuse_lent(run->kind.buffer, false, false, FAULT(REWRITES_KIND) && !c->adds && run->number);
}

struct ring_made {
    const struct ring_call *call;
    struct ring_run *run;
};

static void make_call(void *argument)
{
    const struct ring_made *made = argument;
    struct ring_run *run = made->run;
    struct buffer ring = run->ring.buffer, label = run->label.buffer, handle = run->handle.buffer;
    run->number = made->call->adds ? keylocker_keyring_add(ring.bytes, ring.length, label.bytes, label.length, handle.bytes, handle.length)
                                   : keylocker_keyring_lookup(ring.bytes, ring.length, label.bytes, label.length, run->kind.buffer.bytes, handle.bytes);
    if (FAULTY)
        misuse(made->call, run);
}

/* what keylocker.h says is never written, and all else too where the model says that the call is refused */
static void lend_unwritten(const struct ring_call *c, const struct ring_run *run)
{
    struct ring_run model;
    ring_run_model(c, &model);
    bool refused = model.number != KEYLOCKER_DONE;
    ring_run_free(&model);
    lend_read_only(run->label.room);
    if (refused || !c->adds)
        lend_read_only(run->ring.room);
    if (refused || c->adds)
        lend_read_only(run->handle.room);
    if (refused)
        lend_read_only(run->kind.room);
}

void ring_run_library(const struct ring_call *c, struct ring_run *run)
{
    struct ring_made made = {c, run};
    lend_all(c, true, run);
    if (lends_guarded())
        lend_unwritten(c, run);
    run->touched = touched_by(make_call, &made);
}

void ring_run_model(const struct ring_call *c, struct ring_run *run)
{
    lend_all(c, false, run);
    run->number = c->adds ? model_add(run->ring.buffer, run->label.buffer, run->handle.buffer)
                          : model_lookup(run->ring.buffer, run->label.buffer, run->kind.buffer.bytes, run->handle.buffer.bytes);
}

/* ---- the comparison ---- */

static bool is_kept(const struct lent *lent, const uint8_t *bytes)
{
    return lent->buffer.length == 0 || memcmp(lent->buffer.bytes, bytes, lent->buffer.length) == 0;
}

/* neither of the places that a lookup gives its results in */
static bool results_are_kept(const struct ring_run *run)
{
    bool kept = run->kind.buffer.bytes[0] == BEFORE;
    for (size_t i = 0; i < HANDLE_256; i++)
        kept &= run->handle.buffer.bytes[i] == BEFORE;
    return kept;
}

const char *ring_difference(const struct ring_call *c, const struct ring_run *library, const struct ring_run *model)
{
    if (library->touched)
        return library->touched;
    if (library->number != model->number)
        return "number";
    if (!same(library->ring.buffer, model->ring.buffer))
        return "keyring";
    if (!same(library->kind.buffer, model->kind.buffer))
        return "kind";
    if (!same(library->handle.buffer, model->handle.buffer))
        return "handle";
    if (!all_beside_is_kept(c, library))
        return "bytes beside a buffer written";
    if (!is_kept(&library->label, c->label))
        return "the label was written";
    if ((library->number || !c->adds) && !is_kept(&library->ring, c->ring->bytes))
        return "a lookup or a refused add wrote the keyring";
    if (library->number && !c->adds && !results_are_kept(library))
        return "a refused lookup wrote kind or handle";
    if ((c->meant_refused && library->number != R15_KEYRING) || (c->meant_keyring && library->number == R15_KEYRING))
        return "not the number that the call was made for";
    return NULL;
}

void ring_report(const struct ring_call *c, const struct ring_run *library, const struct ring_run *model)
{
    struct buffer before = {(uint8_t *)c->ring->bytes, c->ring->length};
    printf("call: keyring %s\n  number: library %u, model %u%s%s\n", c->adds ? "add" : "lookup", library->number, model->number,
           c->meant_refused ? ", meant 15" : "", c->meant_keyring ? ", meant another than 15" : "");
    print_buffer("keyring", before);
    print_buffer("label", library->label.buffer);
    print_buffer("handle, library", library->handle.buffer);
    print_buffer("handle, model", model->handle.buffer);
    print_buffer("kind, library", library->kind.buffer);
    print_buffer("kind, model", model->kind.buffer);
    print_first_difference("keyring", before, library->ring.buffer, model->ring.buffer);
}
