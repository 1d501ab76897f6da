#include "keyring.h"

#include <stdio.h>
#include <string.h>

#include "answer.h"
#include "print.h"
#include "value.h"

/* The longest that a trace can lend. */
#define RECORDS_LIMIT (BYTES_LIMIT / KEYLOCKER_KEYRING_RECORD)

/* ---- the records of a keyring that is not refused */

static size_t index_at(const uint8_t *stored)
{
    return stored[0] | (size_t)stored[1] << 8;
}

static const uint8_t *record_at(const struct simulator *s, size_t index)
{
    return s->keyring.data + KEYLOCKER_KEYRING_RECORD * index;
}

static size_t head(const struct simulator *s, unsigned chain)
{
    return index_at(s->keyring.data + 2 * chain);
}

static size_t next(const struct simulator *s, size_t index)
{
    return index_at(record_at(s, index) + KEYLOCKER_RECORD_NEXT);
}

static unsigned chain_of(const uint8_t *label)
{
    return label[0] % KEYLOCKER_KEYRING_HEADS;
}

/* The first record of its chain with the label, 0 for none. */
static size_t find(const struct simulator *s, const uint8_t *label)
{
    size_t index = head(s, chain_of(label));
    while (index != 0 && memcmp(record_at(s, index) + KEYLOCKER_RECORD_LABEL, label, KEYLOCKER_LABEL_SIZE) != 0)
        index = next(s, index);
    return index;
}

/* ---- what is lent */

static void run_records(struct simulator *s)
{
    size_t size = KEYLOCKER_KEYRING_RECORD * (size_t)take_number(&s->line, "the number of records", RECORDS_LIMIT);
    take_end(&s->line);
    print_statement(s);
    s->keyring.len = 0;
    bytes_reserve(&s->keyring, size);
    memset(s->keyring.data, 0, size);
    s->keyring.len = size;
}

static void run_assign(struct simulator *s)
{
    take_bytes(s, "the keyring's bytes", &s->left);
    take_end(&s->line);
    print_statement(s);
    bytes_assign(&s->keyring, s->left.data, s->left.len);
}

/* ---- the calls */

/* One word, so that the handle's can follow. */
static void take_label(struct simulator *s)
{
    s->left.len = 0;
    append_word_value(s, take_word(&s->line, "a label"), &s->left);
}

/* Whether the label is there already, found without a call that counts. */
static bool is_there(const struct simulator *s)
{
    uint8_t kind, handle[KEYLOCKER_HANDLE_256_SIZE];
    return keylocker_keyring_lookup(s->keyring.data, s->keyring.len, s->left.data, s->left.len, &kind, handle) == KEYLOCKER_DONE;
}

static void run_add(struct simulator *s)
{
    take_label(s);
    take_bytes(s, "a handle", &s->right);
    take_end(&s->line);
    print_statement(s);
    bool there = is_there(s);
    uint32_t answer = keylocker_keyring_add(s->keyring.data, s->keyring.len, s->left.data, s->left.len, s->right.data, s->right.len);
    if (!answered(s, CALL_KEYRING_ADD, answer))
        return;
    print_answer(s, "0 done: record %zu of chain %u, %s", find(s, s->left.data), chain_of(s->left.data),
                 there ? "its handle is replaced" : "a new one, the first of its chain");
}

static void run_lookup(struct simulator *s)
{
    uint8_t kind, handle[KEYLOCKER_HANDLE_256_SIZE];
    take_label(s);
    struct name *result = take_result(s, KEYLOCKER_HANDLE_256_SIZE);
    take_end(&s->line);
    print_statement(s);
    uint32_t answer = keylocker_keyring_lookup(s->keyring.data, s->keyring.len, s->left.data, s->left.len, &kind, handle);
    if (!answered(s, CALL_KEYRING_LOOKUP, answer)) {
        take_value_away(s, result);
        return;
    }
    s->last.kind = kind;
    size_t len = kind == KEYLOCKER_KIND_256 ? KEYLOCKER_HANDLE_256_SIZE : KEYLOCKER_HANDLE_128_SIZE;
    print_answer(s, "0 done: record %zu of chain %u, kind %u", find(s, s->left.data), chain_of(s->left.data), kind);
    print_result(s, "handle", result, handle, len);
    give_value(s, result, handle, len);
}

void run_keyring(struct simulator *s)
{
    static const char expected[] = "=, records, add or lookup";
    if (accept(&s->line, "=")) {
        run_assign(s);
    } else if (accept(&s->line, "records")) {
        run_records(s);
    } else if (accept(&s->line, "add")) {
        run_add(s);
    } else if (accept(&s->line, "lookup")) {
        run_lookup(s);
    } else {
        struct word word = take_word(&s->line, expected);
        bad_line(&s->line, "expected %s, not '%.*s'", expected, shown(word.len), word.text);
    }
}

/* ---- in words */

static bool is_refused(const struct simulator *s)
{
    static const uint8_t label[KEYLOCKER_LABEL_SIZE];
    uint8_t kind, handle[KEYLOCKER_HANDLE_256_SIZE];
    return keylocker_keyring_lookup(s->keyring.data, s->keyring.len, label, sizeof label, &kind, handle) == KEYLOCKER_BAD_KEYRING;
}

/* How many characters it has where it is text, with zeros behind it; otherwise 0. */
static int text_len(const uint8_t *label)
{
    int len = 0;
    while (len < KEYLOCKER_LABEL_SIZE && label[len] >= ' ' && label[len] <= '~')
        len++;
    for (int i = len; i < KEYLOCKER_LABEL_SIZE; i++)
        if (label[i] != 0)
            return 0;
    return len;
}

static void show_record(const struct simulator *s, unsigned chain, size_t index)
{
    const uint8_t *record = record_at(s, index), *label = record + KEYLOCKER_RECORD_LABEL;
    int len = text_len(label);
    printf("        chain %u, record %zu: kind %u, label ", chain, index, record[KEYLOCKER_RECORD_KIND]);
    put_hex(label, KEYLOCKER_LABEL_SIZE);
    if (len > 0)
        printf(" '%.*s'", len, (const char *)label);
    fputs(", handle ", stdout);
    put_hex(record + KEYLOCKER_RECORD_HANDLE, 16);
    puts(" ..");
}

void show_keyring(struct simulator *s)
{
    size_t used = 0;
    if (is_refused(s)) {
        printf("        %zu bytes, which are no keyring: calls on it are refused, %d\n", s->keyring.len, KEYLOCKER_BAD_KEYRING);
        return;
    }
    for (unsigned chain = 0; chain < KEYLOCKER_KEYRING_HEADS; chain++)
        for (size_t index = head(s, chain); index != 0; index = next(s, index)) {
            show_record(s, chain, index);
            used++;
        }
    printf("        %zu of %zu labels\n", used, s->keyring.len / KEYLOCKER_KEYRING_RECORD - 1);
}
