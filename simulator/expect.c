#include "expect.h"

#include <inttypes.h>
#include <stdio.h>
#include <string.h>

#include "cpuid.h"
#include "print.h"
#include "record.h"
#include "refusal.h"
#include "text.h"
#include "value.h"

/* Counts the expectation, and prints it where it is met; where it is not, the caller prints it with what was found. */
static bool unmet(struct simulator *s, bool met)
{
    s->counts.expects++;
    if (met)
        print_met(s);
    else if (s->counts.unmet++ == 0)
        s->counts.first_unmet = s->line.number;
    return !met;
}

static void need_call(const struct simulator *s)
{
    if (s->last.call == CALL_NONE)
        bad_line(&s->line, "expected a call before what is expected of it");
}

static void print_answered(struct simulator *s)
{
    if (s->last.answer == KEYLOCKER_DONE)
        print_unmet(s, "the last call was done");
    else
        print_unmet(s, "the last call was refused, %u (%s)", (unsigned)s->last.answer, answer_name(s->last.answer));
}

/* Every expectation of a call's answer speaks of a refusal, but that it was done says nothing of ZF. */
static void expect_answer(struct simulator *s, uint32_t answer)
{
    take_end(&s->line);
    need_call(s);
    s->last.expected |= s->last.answer != KEYLOCKER_DONE;
    if (unmet(s, s->last.answer == answer))
        print_answered(s);
}

/* Whether the last call was done and gave something else than was expected of it, which is then still to be printed; a refusal is printed here. */
static bool gave_other(struct simulator *s, bool same)
{
    bool done = s->last.answer == KEYLOCKER_DONE;
    s->last.expected = true;
    if (!unmet(s, done && same))
        return false;
    if (!done)
        print_answered(s);
    return done;
}

static bool has_zf(const struct simulator *s)
{
    return s->last.call == CALL_LOAD || s->last.call == CALL_ENCODE || s->last.call == CALL_USE || s->last.call == CALL_IDLE ||
           s->last.call == CALL_UNKNOWN_STEP || s->last.call == CALL_CTR;
}

static void expect_zf(struct simulator *s)
{
    uint64_t zf = take_number(&s->line, "ZF", 1);
    take_end(&s->line);
    if (!has_zf(s))
        bad_line(&s->line, "expected an instruction or a ctr as the last call before 'expect zf'");
    if (gave_other(s, s->last.zf == zf))
        print_unmet(s, "ZF is %u", s->last.zf);
}

static void expect_value(struct simulator *s)
{
    uint64_t value = take_number(&s->line, "the value read", UINT64_MAX);
    take_end(&s->line);
    if (s->last.call != CALL_READ)
        bad_line(&s->line, "expected a read as the last call before 'expect value'");
    if (gave_other(s, s->last.value == value))
        print_unmet(s, "the value is %" PRIu64, s->last.value);
}

static void expect_cpuid(struct simulator *s, int place)
{
    uint64_t value = take_number(&s->line, "what CPUID answers", UINT32_MAX);
    take_end(&s->line);
    if (s->last.call != CALL_CPUID)
        bad_line(&s->line, "expected a cpuid as the last call before 'expect %s'", cpuid_names[place]);
    if (gave_other(s, s->last.cpuid[place] == value))
        print_unmet(s, "%s is 0x%" PRIx32, cpuid_names[place], s->last.cpuid[place]);
}

static void expect_kind(struct simulator *s)
{
    uint64_t kind = take_number(&s->line, "the kind that a lookup gives", UINT8_MAX);
    take_end(&s->line);
    if (s->last.call != CALL_KEYRING_LOOKUP)
        bad_line(&s->line, "expected a keyring lookup as the last call before 'expect kind'");
    if (gave_other(s, s->last.kind == kind))
        print_unmet(s, "the kind is %u", s->last.kind);
}

static void expect_register(struct simulator *s, const struct field *field)
{
    take_keyword(&s->line, "=");
    uint64_t value = take_number(&s->line, "the register's value", UINT64_MAX);
    take_end(&s->line);
    uint64_t found = get_field(this_cpu(s), field);
    if (unmet(s, found == value))
        print_unmet(s, "%s is 0x%" PRIx64, field->name, found);
}

/* ---- bytes */

enum { EXCERPT = 16, EXCERPT_TEXT = 2 * EXCERPT + 16 };

/* Some bytes from there on, or that there are none. */
static void excerpt(const struct bytes *b, size_t at, char text[EXCERPT_TEXT])
{
    struct text t;
    text_start(&t, text, EXCERPT_TEXT);
    if (at >= b->len) {
        text_add(&t, "nothing");
        return;
    }
    text_add_bytes(&t, b->data + at, b->len - at < EXCERPT ? b->len - at : EXCERPT);
    text_add(&t, b->len > at + EXCERPT ? ".." : "");
}

/* The first place where they differ, or where the shorter ends. */
static size_t difference(const struct bytes *a, const struct bytes *b)
{
    size_t i = 0;
    while (i < a->len && i < b->len && a->data[i] == b->data[i])
        i++;
    return i;
}

static void expect_bytes(struct simulator *s)
{
    take_bytes(s, "done, refused, zf, value, kind, eax, ebx, ecx, edx or bytes", &s->left);
    take_keyword(&s->line, "=");
    take_bytes(s, "bytes", &s->right);
    take_end(&s->line);
    const struct bytes *found = &s->left, *wanted = &s->right;
    if (!unmet(s, found->len == wanted->len && memcmp(found->data, wanted->data, found->len) == 0))
        return;
    char left[EXCERPT_TEXT], right[EXCERPT_TEXT];
    size_t at = difference(found, wanted);
    excerpt(found, at, left);
    excerpt(wanted, at, right);
    if (found->len == wanted->len)
        print_unmet(s, "byte %zu differs: found %s, expected %s", at, left, right);
    else
        print_unmet(s, "%zu bytes, expected %zu; byte %zu differs: found %s, expected %s", found->len, wanted->len, at, left, right);
}

/* ---- dispatch */

/* The register of CPUID that the next word names, or -1. */
static int accept_cpuid(struct simulator *s)
{
    for (int place = 0; place < CPUID_REGISTERS; place++)
        if (accept(&s->line, cpuid_names[place]))
            return place;
    return -1;
}

void run_expect(struct simulator *s)
{
    int place = accept_cpuid(s);
    if (place >= 0) {
        expect_cpuid(s, place);
    } else if (accept(&s->line, "done")) {
        expect_answer(s, KEYLOCKER_DONE);
    } else if (accept(&s->line, "refused")) {
        expect_answer(s, take_refusal(&s->line));
    } else if (accept(&s->line, "zf")) {
        expect_zf(s);
    } else if (accept(&s->line, "value")) {
        expect_value(s);
    } else if (accept(&s->line, "kind")) {
        expect_kind(s);
    } else {
        const struct field *field = at_end(&s->line) ? NULL : register_named(s->line.words[s->line.next]);
        if (field == NULL) {
            expect_bytes(s);
            return;
        }
        if (s->processor < 0)
            bad_line(&s->line, "'%s' belongs to a processor; expected cpu N before the statement", field->name);
        s->line.next++;
        expect_register(s, field);
    }
}
