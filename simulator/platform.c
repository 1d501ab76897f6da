#include "platform.h"

#include <string.h>

#include "answer.h"
#include "print.h"
#include "value.h"

uint8_t machine_byte(const struct simulator *s, size_t at)
{
    return at < s->machine.len ? s->machine.data[at] : 0;
}

/* ---- power-on and reset */

static uint8_t take_feature(struct simulator *s)
{
    static const struct choice features[] = {
        {"kl", KEYLOCKER_FEATURE_KL},         {"firmware", KEYLOCKER_FEATURE_FIRMWARE},   {"wide", KEYLOCKER_FEATURE_WIDE},
        {"backup", KEYLOCKER_FEATURE_BACKUP}, {"no-backup", KEYLOCKER_FEATURE_NO_BACKUP}, {"random", KEYLOCKER_FEATURE_RANDOM},
        {"all", KEYLOCKER_FEATURE_ALL},
    };
    return (uint8_t)TAKE_CHOICE(&s->line, features, UINT8_MAX, "kl, firmware, wide, backup, no-backup, random, all, or a number from 0 to 255");
}

static uint8_t take_features(struct simulator *s)
{
    uint8_t bits = 0;
    do
        bits |= take_feature(s);
    while (!at_end(&s->line));
    return bits;
}

void run_power_on(struct simulator *s)
{
    uint8_t count = (uint8_t)take_number(&s->line, "the number of processors", UINT8_MAX);
    uint8_t bits = KEYLOCKER_FEATURE_ALL;
    if (accept(&s->line, "features"))
        bits = take_features(s);
    else if (accept(&s->line, "without"))
        bits &= (uint8_t)~take_features(s);
    take_end(&s->line);
    print_statement(s);
    if (!answered(s, CALL_POWER_ON, keylocker_power_on(s->machine.data, s->machine.len, count, bits)))
        return;
    fresh_cpus(s);
    print_answer(s, "0 done: %u processor%s, every IWKey zero, no backup, nothing in persistent storage", count, count == 1 ? "" : "s");
}

void run_reset(struct simulator *s)
{
    take_end(&s->line);
    print_statement(s);
    if (!answered(s, CALL_RESET, keylocker_reset(s->machine.data, s->machine.len)))
        return;
    fresh_cpus(s);
    print_answer(s, "0 done: as at power-on, every IWKey zero, no backup, nothing in persistent storage");
}

/* ---- taken, settle and sleep */

void run_taken(struct simulator *s)
{
    take_end(&s->line);
    print_statement(s);
    bool pending = machine_byte(s, KEYLOCKER_MACHINE_PENDING), consumed = machine_byte(s, KEYLOCKER_MACHINE_CONSUMED);
    if (!answered(s, CALL_TAKEN, keylocker_taken(s->machine.data, s->machine.len)))
        return;
    if (!pending)
        print_answer(s, "0 done: no backup was pending, nothing changes");
    else if (consumed)
        print_answer(s, "0 done: the platform has taken the backup before, nothing changes");
    else
        print_answer(s, "0 done: the platform has taken the backup, its storage is still at work");
}

void run_settle(struct simulator *s)
{
    static const struct choice codes[] = {{"good", KEYLOCKER_SETTLE_GOOD}, {"bad", KEYLOCKER_SETTLE_BAD}};
    uint8_t code = (uint8_t)TAKE_CHOICE(&s->line, codes, UINT8_MAX, "good, bad, or a code from 0 to 255");
    take_end(&s->line);
    print_statement(s);
    bool pending = machine_byte(s, KEYLOCKER_MACHINE_PENDING);
    if (!answered(s, CALL_SETTLE, keylocker_settle(s->machine.data, s->machine.len, code)))
        return;
    if (!pending)
        print_answer(s, "0 done: no backup was pending, nothing changes");
    else if (code == KEYLOCKER_SETTLE_GOOD)
        print_answer(s, "0 done: the backup is in persistent storage");
    else
        print_answer(s, "0 done: persistent storage failed and holds nothing; the backup itself stays until a sleep");
}

static void print_slept(struct simulator *s, uint8_t code, bool pending)
{
    static const char *const kept[] = {
        [KEYLOCKER_WAKE_OLD] = "the pending backup is lost, persistent storage has what it had before",
        [KEYLOCKER_WAKE_NEW] = "persistent storage has the backup that was pending",
    };
    if (s->options.quiet)
        return;
    char room[IWKEY_TEXT];
    const uint8_t *backup = s->machine.data + KEYLOCKER_MACHINE_BACKUP;
    add_answer(s, "0 done: every IWKey is zero; ");
    if (code == KEYLOCKER_WAKE_JUNK)
        add_answer(s, "persistent storage has junk");
    else
        add_answer(s, "%s", pending ? kept[code] : "persistent storage has what it had");
    print_answer(s, "; the backup now: %s", backup[KEYLOCKER_SLOT_PRESENT] ? iwkey_text(s, backup + KEYLOCKER_SLOT_IWKEY, room) : "none");
}

void run_sleep(struct simulator *s)
{
    static const struct choice codes[] = {{"old", KEYLOCKER_WAKE_OLD}, {"new", KEYLOCKER_WAKE_NEW}, {"junk", KEYLOCKER_WAKE_JUNK}};
    uint8_t code = (uint8_t)TAKE_CHOICE(&s->line, codes, UINT8_MAX, "old, new, junk, or a code from 0 to 255");
    take_end(&s->line);
    print_statement(s);
    bool pending = machine_byte(s, KEYLOCKER_MACHINE_PENDING);
    if (answered(s, CALL_SLEEP, keylocker_sleep(s->machine.data, s->machine.len, code)))
        print_slept(s, code, pending);
}

/* ---- what is lent */

void run_machine(struct simulator *s)
{
    take_keyword(&s->line, "=");
    take_bytes(s, "the machine's bytes", &s->left);
    take_end(&s->line);
    print_statement(s);
    bytes_assign(&s->machine, s->left.data, s->left.len);
}

static void run_memory_size(struct simulator *s)
{
    size_t size = (size_t)take_number(&s->line, "the size of guest memory", MEMORY_ROOM);
    take_end(&s->line);
    print_statement(s);
    s->memory_len = size;
}

void run_memory(struct simulator *s)
{
    if (accept(&s->line, "size")) {
        run_memory_size(s);
        return;
    }
    size_t at = (size_t)take_number(&s->line, "size or an address in guest memory", KEYLOCKER_MEMORY_LIMIT - 1);
    take_keyword(&s->line, "=");
    take_bytes(s, "bytes", &s->left);
    take_end(&s->line);
    if (s->left.len > KEYLOCKER_MEMORY_LIMIT - at)
        bad_line(&s->line, "expected at most %zu bytes from address %zu on, and these are %zu", KEYLOCKER_MEMORY_LIMIT - at, at, s->left.len);
    print_statement(s);
    memcpy(s->memory + at, s->left.data, s->left.len);
}
