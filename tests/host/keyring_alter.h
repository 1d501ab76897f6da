/* Keyrings written by somebody else than the library: each reason for 15, and what is no reason. */
#ifndef KEYRING_ALTER_H
#define KEYRING_ALTER_H

#include "keyring_make.h"

struct altered {
    struct ring *ring;
    const struct picture *picture; /* of the keyring before */
    uint8_t label[LABEL_SIZE];     /* becomes one that the alteration is about, if it is about any */
};

struct alteration {
    bool refused; /* with 15; otherwise it is a keyring still */
    const char *text;
    bool (*apply)(struct altered *a); /* false, and nothing changed, where the keyring has no place for it */
};

extern const struct alteration alterations[];
extern const int alteration_count;

#endif
