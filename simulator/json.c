#include "json.h"

#include <inttypes.h>
#include <stdio.h>
#include <string.h>

#include "cpuid.h"
#include "refusal.h"

/* ---- values */

/* How many bytes of UTF-8 begin there; 0 where none do, or what is not a character (surrogates, overlong forms, above 10FFFF). */
static size_t character(const uint8_t *p, size_t len)
{
    size_t size = p[0] < 0x80 ? 1 : p[0] >= 0xC2 && p[0] < 0xE0 ? 2 : p[0] >> 4 == 0xE ? 3 : p[0] >= 0xF0 && p[0] < 0xF5 ? 4 : 0;
    if (size == 0 || size > len)
        return 0;
    for (size_t i = 1; i < size; i++)
        if (p[i] >> 6 != 2)
            return 0;
    bool overlong = (p[0] == 0xE0 && p[1] < 0xA0) || (p[0] == 0xF0 && p[1] < 0x90);
    bool beyond = (p[0] == 0xED && p[1] >= 0xA0) || (p[0] == 0xF4 && p[1] >= 0x90);
    return overlong || beyond ? 0 : size;
}

/* A trace may have any bytes; those that are no UTF-8 become the replacement character. */
static void put_string(const char *text, size_t len)
{
    const uint8_t *p = (const uint8_t *)text;
    putchar('"');
    for (size_t i = 0; i < len;) {
        size_t size = character(p + i, len - i);
        if (size == 0)
            fputs("\\ufffd", stdout);
        else if (p[i] == '"' || p[i] == '\\')
            printf("\\%c", p[i]);
        else if (p[i] < ' ' || p[i] == 0x7F)
            printf("\\u%04x", p[i]);
        else
            fwrite(p + i, 1, size, stdout);
        i += size == 0 ? 1 : size;
    }
    putchar('"');
}

static void put_name(const char *name)
{
    printf(",\"%s\":", name);
}

static void put_text(const char *name, const char *text)
{
    put_name(name);
    if (text == NULL)
        fputs("null", stdout);
    else
        put_string(text, strlen(text));
}

static void put_number(const char *name, bool there, uint64_t number)
{
    put_name(name);
    if (there)
        printf("%" PRIu64, number);
    else
        fputs("null", stdout);
}

static void put_bytes(const char *name, bool there, const uint8_t *data, size_t len)
{
    put_name(name);
    if (!there) {
        fputs("null", stdout);
        return;
    }
    putchar('"');
    put_hex(data, len);
    putchar('"');
}

static void begin(const char *type, size_t line)
{
    printf("{\"type\":\"%s\"", type);
    put_number("line", true, line);
}

/* ---- calls */

/* The library's. */
static const char *call_name(enum call call)
{
    static const char *const names[] = {
        [CALL_POWER_ON] = "power-on", [CALL_LOAD] = "step",
        [CALL_ENCODE] = "step",       [CALL_USE] = "step",
        [CALL_IDLE] = "step",         [CALL_UNKNOWN_STEP] = "step",
        [CALL_CTR] = "ctr",           [CALL_CPUID] = "cpuid",
        [CALL_READ] = "read",         [CALL_WRITE] = "write",
        [CALL_TAKEN] = "taken",       [CALL_SETTLE] = "settle",
        [CALL_SLEEP] = "sleep",       [CALL_RESET] = "reset",
        [CALL_KEYRING_ADD] = "keyring add", [CALL_KEYRING_LOOKUP] = "keyring lookup",
    };
    return names[call];
}

/* Two texts of a call, whose lines are ended. */
static void put_lines(const char *name, const struct bytes *lines)
{
    put_name(name);
    if (lines->len == 0)
        fputs("null", stdout);
    else
        put_string((const char *)lines->data, lines->len - (lines->data[lines->len - 1] == '\n'));
}

void json_called(const struct simulator *s)
{
    const struct last *last = &s->last;
    bool done = last->answer == KEYLOCKER_DONE;
    begin("call", last->line);
    put_text("call", call_name(last->call));
    put_lines("instruction", &s->instruction);
    put_number("processor", last->processor >= 0, (uint64_t)last->processor);
    put_number("handle", last->call == CALL_USE, last->handle);
    put_number("number", true, last->answer);
    put_text("refusal", done ? NULL : answer_name(last->answer));
    put_number("zf", wrote_zf(last), last->zf);
    put_number("value", done && last->call == CALL_READ, last->value);
    put_number("kind", done && last->call == CALL_KEYRING_LOOKUP, last->kind);
    for (int place = 0; place < CPUID_REGISTERS; place++)
        put_number(cpuid_names[place], done && last->call == CALL_CPUID, last->cpuid[place]);
    put_text("name", last->name == NULL ? NULL : last->name->text);
    put_bytes("result", last->has_result, s->result.data, s->result.len);
    put_lines("text", &s->answer);
    puts("}");
}

/* ---- the rest */

static void put_expectation(const struct simulator *s, bool met)
{
    begin("expect", s->line.number);
    put_name("text");
    put_string(s->line.text, s->line.len);
    printf(",\"met\":%s", met ? "true" : "false");
}

void json_met(const struct simulator *s)
{
    put_expectation(s, true);
    puts(",\"found\":null}");
}

void json_unmet(const struct simulator *s, const struct bytes *found)
{
    put_expectation(s, false);
    put_lines("found", found);
    puts("}");
}

void json_said(const struct simulator *s, const char *text, size_t len)
{
    begin("say", s->line.number);
    put_name("text");
    put_string(text, len);
    puts("}");
}

static void begin_shown(const struct simulator *s, const char *what)
{
    begin("show", s->line.number);
    put_number("processor", s->processor >= 0, (uint64_t)s->processor);
    put_text("what", what);
}

void json_shown_bytes(const struct simulator *s, const char *what, const uint8_t *data, size_t len)
{
    begin_shown(s, what);
    put_number("value", false, 0);
    put_bytes("bytes", true, data, len);
    puts("}");
}

void json_shown_register(const struct simulator *s, const char *what, uint64_t value)
{
    begin_shown(s, what);
    put_number("value", true, value);
    put_bytes("bytes", false, NULL, 0);
    puts("}");
}

void json_summary(const struct simulator *s, int status, bool interrupted)
{
    const struct counts *c = &s->counts;
    fputs("{\"type\":\"summary\"", stdout);
    put_number("lines", true, s->line.number);
    put_number("calls", true, c->calls);
    put_number("refused", true, c->refused);
    put_number("expects", true, c->expects);
    put_number("unmet", true, c->unmet);
    put_number("first_unmet", c->unmet > 0, c->first_unmet);
    put_number("unexpected", true, c->unexpected);
    put_number("first_unexpected", c->unexpected > 0, c->first_unexpected);
    put_number("bad", true, c->bad);
    printf(",\"interrupted\":%s", interrupted ? "true" : "false");
    put_number("status", true, (uint64_t)status);
    puts("}");
}
