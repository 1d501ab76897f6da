/* The names that a trace gives to byte strings. */
#ifndef NAMES_H
#define NAMES_H

#include <stdbool.h>
#include <stddef.h>
#include <stdint.h>

#include "bytes.h"

struct name {
    char *text;
    size_t len;
    uint64_t hash;
    struct bytes value;
    bool given;     /* not by a line that was bad */
    bool has_value; /* not where the call that should have given it gave none */
    bool is_iwkey;
    bool among_iwkeys;
    size_t line; /* where it was last given */
};

/* What the names of a trace may hold, so that a few lines cannot take gigabytes. */
#define NAMES_LIMIT ((size_t)256 * 1024 * 1024)

struct names {
    struct name **all; /* in the order in which the trace first gave them */
    size_t count, room;
    size_t *slots; /* a hash table of places in all, plus 1; 0 is free */
    size_t slot_count;
    struct name **iwkeys; /* those that an IWKey was given */
    size_t iwkey_count, iwkey_room;
    size_t held; /* bytes of names and values, with the rooms that these keep */
};

/* What a name takes besides its text and value: itself, its places in the tables, and what three allocations cost. */
enum { NAME_COST = sizeof(struct name) + 128 };

/* None where there is no such name. */
struct name *names_find(const struct names *names, const char *text, size_t len);

/* The name, made without a value where there was none. It stays where it is. */
struct name *names_get(struct names *names, const char *text, size_t len);

/* Whether the name, old or still to be made (none), can take so many bytes within NAMES_LIMIT. */
bool names_have_room(const struct names *names, const struct name *name, size_t len);

void names_assign(struct names *names, struct name *name, const uint8_t *data, size_t len);

/* The name's value is an IWKey from here on, until it is given another. */
void names_mark_iwkey(struct names *names, struct name *name);

void names_free(struct names *names);

#endif
