/* One call on a keyring, by the library and by the model, and what must be alike. */
#ifndef KEYRING_CALL_H
#define KEYRING_CALL_H

#include "keyring_make.h"

enum { LABEL_ROOM = 16, HANDLE_ROOM = 80 };

struct ring_call {
    bool adds; /* or it looks up */
    const struct ring *ring;
    uint8_t label[LABEL_ROOM], handle[HANDLE_ROOM]; /* the handle is that of an add */
    size_t label_length, handle_length;
    bool null_if_empty; /* buffers of no bytes are null pointers */
    size_t beside;      /* bytes on both sides of each buffer; where there are none, valgrind or a guard sees what is read there */
    bool meant_refused, meant_keyring; /* with 15; with anything but 15 */
};

/* bytes that are lent, between others */
struct lent {
    uint8_t *room;
    struct buffer buffer;
};

struct ring_run {
    uint32_t number;
    const char *touched; /* what the library touched that it may not, or NULL */
    struct lent ring, label, handle; /* the handle that is added, or where the one that is found goes */
    struct lent kind;
};

void ring_run_library(const struct ring_call *c, struct ring_run *run);
void ring_run_model(const struct ring_call *c, struct ring_run *run);
void ring_run_free(struct ring_run *run);

/* NULL if they agree, a refused call wrote nothing, and no call wrote what is not its to write; otherwise what differs. */
const char *ring_difference(const struct ring_call *c, const struct ring_run *library, const struct ring_run *model);

void ring_report(const struct ring_call *c, const struct ring_run *library, const struct ring_run *model);

#endif
