/* Keyrings to try, and what the runner knows of one. */
#ifndef KEYRING_MAKE_H
#define KEYRING_MAKE_H

#include "keyring_model.h"

/* longer than the limit, so that more can be lent */
enum { RING_ROOM = RING_LIMIT + 8 * RING_RECORD };

struct ring {
    size_t length;
    uint8_t bytes[RING_ROOM]; /* zeros behind the length */
};

/* Which record is on which chain, of a block that 15 does not name. */
struct picture {
    size_t count, used_count, unused_count;
    uint16_t used[RING_RECORDS], unused[RING_RECORDS]; /* indices; of used ones each chain from its head to its end */
    uint8_t chains[RING_RECORDS];                      /* of a record, counted from 1; 0 where it is on none */
};

void draw(const struct ring *ring, struct picture *picture);

uint8_t *record_at(struct ring *ring, size_t index);
unsigned load16(const uint8_t *stored);
void store16(uint8_t *stored, size_t value);

/* One of 40 labels, many on the same chains and some alike but for a byte; further numbers give further ones. */
enum { LABELS = 40 };
void label_numbered(size_t number, uint8_t label[LABEL_SIZE]);

/* Any handle: its AAD is for the keyring no more than bytes. */
void some_handle(uint8_t handle[HANDLE_256]);

/* This many records of zeros. */
void make_empty(struct ring *ring, size_t count);

/* The same with chains laid through records in any order, as no list of adds would, and with bytes left over in some that are on none. */
void make_by_hand(struct ring *ring, size_t count);

#endif
