#include "names.h"

#include <stdlib.h>
#include <string.h>

/* FNV-1a */
static uint64_t hash_of(const char *text, size_t len)
{
    uint64_t hash = 0xcbf29ce484222325;
    for (size_t i = 0; i < len; i++)
        hash = (hash ^ (uint8_t)text[i]) * 0x100000001b3;
    return hash ^ hash >> 32;
}

static struct name *find_hashed(const struct names *names, const char *text, size_t len, uint64_t hash)
{
    if (names->slot_count == 0)
        return NULL;
    for (size_t i = hash % names->slot_count; names->slots[i] != 0; i = (i + 1) % names->slot_count) {
        struct name *name = names->all[names->slots[i] - 1];
        if (name->hash == hash && name->len == len && memcmp(name->text, text, len) == 0)
            return name;
    }
    return NULL;
}

struct name *names_find(const struct names *names, const char *text, size_t len)
{
    return find_hashed(names, text, len, hash_of(text, len));
}

static void put_slot(struct names *names, size_t place)
{
    size_t i = names->all[place]->hash % names->slot_count;
    while (names->slots[i] != 0)
        i = (i + 1) % names->slot_count;
    names->slots[i] = place + 1;
}

/* At most half of the slots are taken, so that searches end soon. */
static void grow(struct names *names)
{
    names->room = names->room == 0 ? 64 : 2 * names->room;
    names->all = allocate(names->all, names->room * sizeof *names->all);
    names->slot_count = 2 * names->room;
    names->slots = allocate(names->slots, names->slot_count * sizeof *names->slots);
    memset(names->slots, 0, names->slot_count * sizeof *names->slots);
    for (size_t place = 0; place < names->count; place++)
        put_slot(names, place);
}

struct name *names_get(struct names *names, const char *text, size_t len)
{
    uint64_t hash = hash_of(text, len);
    struct name *name = find_hashed(names, text, len, hash);
    if (name != NULL)
        return name;
    if (names->count == names->room)
        grow(names);
    name = allocate(NULL, sizeof *name);
    *name = (struct name){.text = allocate(NULL, len + 1), .len = len, .hash = hash};
    memcpy(name->text, text, len);
    name->text[len] = '\0';
    names->all[names->count] = name;
    put_slot(names, names->count++);
    names->held += NAME_COST + len;
    return name;
}

static size_t growth(const struct name *name, size_t len)
{
    size_t room = name == NULL ? 0 : name->value.room;
    return len > room ? len - room : 0;
}

bool names_have_room(const struct names *names, const struct name *name, size_t len)
{
    return names->held + growth(name, len) <= NAMES_LIMIT;
}

void names_assign(struct names *names, struct name *name, const uint8_t *data, size_t len)
{
    names->held += growth(name, len);
    bytes_assign(&name->value, data, len);
}

void names_mark_iwkey(struct names *names, struct name *name)
{
    name->is_iwkey = true;
    if (name->among_iwkeys)
        return;
    name->among_iwkeys = true;
    if (names->iwkey_count == names->iwkey_room) {
        names->iwkey_room = names->iwkey_room == 0 ? 16 : 2 * names->iwkey_room;
        names->iwkeys = allocate(names->iwkeys, names->iwkey_room * sizeof *names->iwkeys);
    }
    names->iwkeys[names->iwkey_count++] = name;
}

void names_free(struct names *names)
{
    for (size_t i = 0; i < names->count; i++) {
        bytes_free(&names->all[i]->value);
        free(names->all[i]->text);
        free(names->all[i]);
    }
    free(names->all);
    free(names->iwkeys);
    free(names->slots);
    *names = (struct names){0};
}
