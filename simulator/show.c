#include "show.h"

#include <inttypes.h>
#include <stdio.h>

#include "json.h"
#include "keyring.h"
#include "print.h"
#include "record.h"
#include "value.h"

/* ---- the machine */

static void put_key(const struct simulator *s, const uint8_t *iwkey)
{
    char room[IWKEY_TEXT];
    printf("%s (key source %u, NoBackup %u)", iwkey_text(s, iwkey, room), iwkey[KEYLOCKER_IWKEY_SOURCE], iwkey[KEYLOCKER_IWKEY_NO_BACKUP]);
}

static void show_slot(const struct simulator *s, const char *what, size_t at)
{
    const uint8_t *slot = s->machine.data + at;
    printf("        %s: ", what);
    if (slot[KEYLOCKER_SLOT_PRESENT])
        put_key(s, slot + KEYLOCKER_SLOT_IWKEY);
    else
        fputs("absent", stdout);
    putchar('\n');
}

/* Whether calls take it: every call but power-on asks that first, and a read writes nothing. */
static bool is_machine(const struct simulator *s)
{
    uint64_t value;
    return keylocker_read(s->machine.data, s->machine.len, 0, 0, KEYLOCKER_COPY_STATUS, &value) != KEYLOCKER_BAD_MACHINE;
}

static bool all_zero(const uint8_t *data, size_t len)
{
    size_t i = 0;
    while (i < len && data[i] == 0)
        i++;
    return i == len;
}

static void show_machine(struct simulator *s)
{
    const uint8_t *m = s->machine.data;
    if (!is_machine(s)) {
        bool whole = s->machine.len == KEYLOCKER_MACHINE_SIZE, fresh = whole && all_zero(m, s->machine.len);
        printf("        %zu bytes, %s; every call%s is refused, %d\n", s->machine.len, fresh ? "all zero: the machine is not powered on" : "which are no machine",
               whole ? " but power-on" : "", KEYLOCKER_BAD_MACHINE);
        return;
    }
    printf("        processors %u, features 0x%02x\n", m[KEYLOCKER_MACHINE_COUNT], m[KEYLOCKER_MACHINE_FEATURES]);
    for (unsigned n = 0; n < m[KEYLOCKER_MACHINE_COUNT]; n++) {
        const uint8_t *entry = m + KEYLOCKER_MACHINE_ENTRIES + n * KEYLOCKER_ENTRY_SIZE;
        printf("        cpu %u: IWKey ", n);
        put_key(s, entry);
        printf(", copy status %u\n", entry[KEYLOCKER_ENTRY_COPY_STATUS]);
    }
    show_slot(s, "backup", KEYLOCKER_MACHINE_BACKUP);
    show_slot(s, "persistent storage", KEYLOCKER_MACHINE_STORE);
    printf("        pending %u, valid %u, error %u, consumed %u\n", m[KEYLOCKER_MACHINE_PENDING], m[KEYLOCKER_MACHINE_VALID], m[KEYLOCKER_MACHINE_ERROR],
           m[KEYLOCKER_MACHINE_CONSUMED]);
}

/* ---- a processor */

/* Registers that are zero are left out, but CPL and control bits are always told. */
static void show_cpu(struct simulator *s)
{
    struct cpu *cpu = this_cpu(s);
    printf("        record of %zu bytes", cpu->len);
    for (size_t i = 0; register_numbered(i) != NULL; i++) {
        const struct field *field = register_numbered(i);
        uint64_t value = get_field(cpu, field);
        if (value != 0 || field->size == 1)
            printf(", %s 0x%" PRIx64, field->name, value);
    }
    putchar('\n');
    for (unsigned n = 0; n < 16; n++) {
        if (all_zero(xmm_of(cpu, n), 16))
            continue;
        printf("        xmm%u ", n);
        put_hex(xmm_of(cpu, n), 16);
        putchar('\n');
    }
}

static void show_register(struct simulator *s, const struct field *field)
{
    uint64_t value = get_field(this_cpu(s), field);
    print_shown_statement(s);
    if (s->options.json)
        json_shown_register(s, field->name, value);
    else
        printf("        %s 0x%" PRIx64 "\n", field->name, value);
}

/* ---- statements */

/* In words, or all bytes as JSON. */
static void show_words(struct simulator *s, const char *what, const uint8_t *data, size_t len, void (*show)(struct simulator *s))
{
    print_shown_statement(s);
    if (s->options.json)
        json_shown_bytes(s, what, data, len);
    else
        show(s);
}

static void show_bytes(struct simulator *s)
{
    take_bytes(s, "machine, keyring or bytes", &s->left);
    take_end(&s->line);
    print_shown_statement(s);
    if (s->options.json) {
        json_shown_bytes(s, "bytes", s->left.data, s->left.len);
        return;
    }
    for (size_t i = 0; i < s->left.len; i += 32) {
        printf("        %6zx  ", i);
        put_hex(s->left.data + i, s->left.len - i < 32 ? s->left.len - i : 32);
        putchar('\n');
    }
}

void run_show(struct simulator *s)
{
    if (s->line.count == 2 && accept(&s->line, "machine"))
        show_words(s, "machine", s->machine.data, s->machine.len, show_machine);
    else if (s->line.count == 2 && accept(&s->line, "keyring"))
        show_words(s, "keyring", s->keyring.data, s->keyring.len, show_keyring);
    else
        show_bytes(s);
}

void run_cpu_show(struct simulator *s)
{
    const struct field *field = at_end(&s->line) ? NULL : register_named(s->line.words[s->line.next]);
    if (at_end(&s->line)) {
        show_words(s, "record", this_cpu(s)->record, this_cpu(s)->len, show_cpu);
    } else if (field != NULL) {
        s->line.next++;
        take_end(&s->line);
        show_register(s, field);
    } else {
        show_bytes(s);
    }
}
