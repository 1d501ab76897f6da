#include "print.h"

#include <stdarg.h>
#include <stdio.h>
#include <string.h>

#include "answer.h"
#include "json.h"
#include "refusal.h"
#include "text.h"

enum { TEXT_LIMIT = 180, CUT = 128 };

/* ---- statements */

static void end_saying(struct simulator *s)
{
    if (s->said)
        putchar('\n');
    s->said = false;
}

static void put_statement(struct simulator *s)
{
    size_t len = s->line.len;
    end_saying(s);
    s->printed = true;
    printf("%6zu  %.*s%s", s->line.number, len > TEXT_LIMIT ? TEXT_LIMIT : (int)len, s->line.text, len > TEXT_LIMIT ? " ..." : "");
}

void print_statement(struct simulator *s)
{
    if (s->options.quiet || s->options.json)
        return;
    put_statement(s);
    putchar('\n');
}

void print_shown_statement(struct simulator *s)
{
    end_saying(s);
    s->printed = true;
    print_statement(s);
}

void say(struct simulator *s)
{
    size_t blanks = 3;
    while (blanks < s->line.len && (s->line.text[blanks] == ' ' || s->line.text[blanks] == '\t'))
        blanks++;
    if (s->options.json) {
        json_said(s, s->line.text + blanks, s->line.len - blanks);
        return;
    }
    if (!s->said && s->printed)
        putchar('\n');
    s->said = s->printed = true;
    fwrite(s->line.text + blanks, 1, s->line.len - blanks, stdout);
    putchar('\n');
}

/* ---- results */

/* Many are cut short. */
static void put_hex_cut(const uint8_t *data, size_t len)
{
    put_hex(data, len > CUT ? 32 : len);
    if (len > CUT)
        printf(" ... (%zu bytes)", len);
    if (len == 0)
        fputs("(no bytes)", stdout);
}

void print_result(struct simulator *s, const char *text, const struct name *name, const uint8_t *data, size_t len)
{
    s->last.name = name;
    s->last.has_result = true;
    if (s->options.quiet)
        return;
    if (s->options.json) {
        bytes_assign(&s->result, data, len);
        return;
    }
    printf("        %s%s", name == NULL ? text : name->text, name == NULL ? " " : " = ");
    put_hex_cut(data, len);
    putchar('\n');
}

const char *iwkey_text(const struct simulator *s, const uint8_t *iwkey, char room[IWKEY_TEXT])
{
    static const uint8_t zero[KEYLOCKER_IWKEY_SOURCE];
    if (memcmp(iwkey, zero, sizeof zero) == 0)
        return "all zero";
    for (size_t i = 0; i < s->names.iwkey_count; i++) {
        const struct name *name = s->names.iwkeys[i];
        if (name->is_iwkey && memcmp(name->value.data, iwkey, KEYLOCKER_IWKEY_SOURCE) == 0)
            return name->text;
    }
    struct text t;
    text_start(&t, room, IWKEY_TEXT);
    text_add(&t, "integrity ");
    text_add_bytes(&t, iwkey + KEYLOCKER_IWKEY_INTEGRITY, KEYLOCKER_IWKEY_ENCRYPTION - KEYLOCKER_IWKEY_INTEGRITY);
    text_add(&t, " encryption ");
    text_add_bytes(&t, iwkey + KEYLOCKER_IWKEY_ENCRYPTION, KEYLOCKER_IWKEY_SOURCE - KEYLOCKER_IWKEY_ENCRYPTION);
    return room;
}

/* ---- expectations */

void print_met(struct simulator *s)
{
    if (s->options.quiet)
        return;
    if (s->options.json) {
        json_met(s);
        return;
    }
    put_statement(s);
    puts(": met");
}

void print_unmet(struct simulator *s, const char *format, ...)
{
    struct bytes found = {0};
    va_list arguments;
    va_start(arguments, format);
    bytes_print(&found, format, arguments);
    va_end(arguments);
    if (s->options.json) {
        json_unmet(s, &found);
    } else {
        put_statement(s);
        printf(": NOT MET, %.*s\n", (int)found.len, (const char *)found.data);
    }
    bytes_free(&found);
}

/* ---- calls */

void count_unexpected(struct simulator *s)
{
    const struct last *last = &s->last;
    if (last->call == CALL_NONE || last->expected || !(last->answer != KEYLOCKER_DONE || (wrote_zf(last) && last->zf)))
        return;
    if (s->counts.unexpected++ == 0)
        s->counts.first_unexpected = last->line;
}

bool answered(struct simulator *s, enum call call, uint32_t answer)
{
    count_unexpected(s);
    s->last = (struct last){.call = call, .line = s->line.number, .processor = s->processor, .answer = answer};
    s->called = true;
    s->counts.calls++;
    if (answer == KEYLOCKER_DONE)
        return true;
    s->counts.refused++;
    add_answer(s, "%u ", (unsigned)answer);
    add_refusal(s, call, answer);
    end_answer(s);
    return false;
}

void end_call(struct simulator *s)
{
    if (s->options.json && !s->options.quiet)
        json_called(s);
    s->answer.len = s->instruction.len = 0;
}

void print_summary(const struct simulator *s, int status, bool interrupted)
{
    const struct counts *c = &s->counts;
    if (s->options.json) {
        json_summary(s, status, interrupted);
        return;
    }
    if (s->printed)
        putchar('\n');
    printf("%zu lines, %zu calls, %zu of them refused; %zu expectations, %zu of them not met", s->line.number, c->calls, c->refused, c->expects, c->unmet);
    if (s->options.strict)
        printf("; %zu calls refused or with ZF 1 that no expectation names", c->unexpected);
    if (c->bad > 0)
        printf("; %zu bad lines", c->bad);
    puts(interrupted ? "; interrupted" : "");
}
