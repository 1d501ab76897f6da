#include "value.h"

#include <ctype.h>
#include <inttypes.h>
#include <string.h>

#include "record.h"
#include "text.h"

/* Words that stand behind bytes in some statement. None of them is a name or hexadecimal. */
static const char *const stops[] = {"->", "=", "random", "encryption", "no-backup", "cpl0-only", "no-encrypt", "no-decrypt", "restrict"};

/* Other words that cannot be names, because they have a meaning where names stand. */
static const char *const reserved[] = {"machine", "memory", "keyring", "record", "at", "empty", "integrity", "not-ready",
                                       "done", "refused", "zf", "value", "kind", "eax", "ebx", "ecx", "edx"};

static bool one_of(struct word word, const char *const *keywords, size_t count)
{
    for (size_t i = 0; i < count; i++)
        if (word_is(word, keywords[i]))
            return true;
    return false;
}

#define ONE_OF(word, keywords) one_of(word, keywords, sizeof keywords / sizeof *keywords)

static bool all_hex(struct word word)
{
    for (size_t i = 0; i < word.len; i++)
        if (hex_digit(word.text[i]) < 0)
            return false;
    return true;
}

static bool name_character(char c)
{
    return isalnum((unsigned char)c) || c == '_' || c == '-' || c == '.';
}

/* Bytes that stand somewhere else. */
struct view {
    const uint8_t *data;
    size_t len;
};

static struct view hex_view(struct simulator *s, struct word word)
{
    if (word.len % 2 != 0)
        bad_line(&s->line, "'%.*s' has an odd number of hexadecimal digits; expected two for each byte", shown(word.len), word.text);
    s->hexadecimal.len = 0;
    bytes_reserve(&s->hexadecimal, word.len / 2);
    for (size_t i = 0; i < word.len / 2; i++)
        s->hexadecimal.data[i] = (uint8_t)(hex_digit(word.text[2 * i]) << 4 | hex_digit(word.text[2 * i + 1]));
    return (struct view){s->hexadecimal.data, word.len / 2};
}

/* A place of the processor that the statement is for. */
static bool cpu_view(struct simulator *s, struct word word, struct view *view)
{
    int xmm = xmm_named(word);
    if (xmm < 0 && !word_is(word, "record"))
        return false;
    if (s->processor < 0)
        bad_line(&s->line, "'%.*s' belongs to a processor; expected cpu N before the statement", shown(word.len), word.text);
    struct cpu *cpu = this_cpu(s);
    if (xmm >= 0)
        *view = (struct view){xmm_of(cpu, (unsigned)xmm), 16};
    else
        *view = (struct view){cpu->record, cpu->len};
    return true;
}

static struct view named_view(struct simulator *s, struct word word)
{
    struct view view;
    struct name *name = names_find(&s->names, word.text, word.len);
    if (name != NULL && !name->given)
        name = NULL;
    if (name != NULL && !name->has_value)
        bad_line(&s->line, "'%s' has no value: the call in line %zu gave it none", name->text, name->line);
    if (name != NULL)
        return (struct view){name->value.data, name->value.len};
    if (word_is(word, "machine"))
        return (struct view){s->machine.data, s->machine.len};
    if (word_is(word, "memory"))
        return (struct view){s->memory, s->memory_len};
    if (word_is(word, "keyring"))
        return (struct view){s->keyring.data, s->keyring.len};
    if (cpu_view(s, word, &view))
        return view;
    if (register_named(word) != NULL && s->processor < 0)
        bad_line(&s->line, "'%.*s' belongs to a processor; expected cpu N before the statement", shown(word.len), word.text);
    if (register_named(word) != NULL)
        bad_line(&s->line, "'%.*s' is a number; expected bytes", shown(word.len), word.text);
    if (word.len > 2 && word.text[0] == '0' && word.text[1] == 'x')
        bad_line(&s->line, "expected bytes without 0x, the first byte first, not '%.*s'", shown(word.len), word.text);
    bad_line(&s->line, "'%.*s' is no name given before, and not hexadecimal; expected bytes", shown(word.len), word.text);
}

/* A place in a word. */
struct cursor {
    const char *p, *end;
    struct word word;
};

static bool skip(struct cursor *c, const char *text)
{
    size_t len = strlen(text);
    bool is = (size_t)(c->end - c->p) >= len && memcmp(c->p, text, len) == 0;
    c->p += is ? len : 0;
    return is;
}

static uint64_t number_at(struct simulator *s, struct cursor *c)
{
    const char *begin = c->p;
    uint64_t number;
    while (c->p < c->end && *c->p != '.' && name_character(*c->p))
        c->p++;
    if (!number_in(begin, (size_t)(c->p - begin), &number))
        bad_line(&s->line, "expected a number in '%.*s', as in NAME[0..15] or 00*16", shown(c->word.len), c->word.text);
    return number;
}

/* NAME[5] is a byte, NAME[0..15] sixteen. */
static struct view range_of(struct simulator *s, struct cursor *c, struct view view)
{
    uint64_t from = number_at(s, c);
    uint64_t to = skip(c, "..") ? number_at(s, c) : from;
    if (!skip(c, "]"))
        bad_line(&s->line, "expected ] in '%.*s'", shown(c->word.len), c->word.text);
    if (from > to || to >= view.len)
        bad_line(&s->line, "'%.*s' takes bytes %" PRIu64 " to %" PRIu64 " of %zu; expected the first not behind the last, and both there",
                 shown(c->word.len), c->word.text, from, to, view.len);
    return (struct view){view.data + from, (size_t)(to - from) + 1};
}

static void append_limited(struct simulator *s, struct bytes *out, size_t begin, struct view view, uint64_t times)
{
    if (view.len != 0 && times > (BYTES_LIMIT - (out->len - begin)) / view.len)
        bad_line(&s->line, "expected at most %zu bytes in one byte string", BYTES_LIMIT);
    for (uint64_t i = 0; view.len != 0 && i < times; i++)
        bytes_append(out, view.data, view.len);
}

/* Those from begin on are within the limit of one byte string. */
static void append_factor(struct simulator *s, struct cursor *c, struct bytes *out, size_t begin)
{
    struct word word = {c->p, 0};
    while (c->p < c->end && name_character(*c->p))
        c->p++;
    word.len = (size_t)(c->p - word.text);
    if (word.len == 0)
        bad_line(&s->line, "expected bytes, hexadecimal or a name, in '%.*s'", shown(c->word.len), c->word.text);
    struct view view = all_hex(word) ? hex_view(s, word) : named_view(s, word);
    if (skip(c, "["))
        view = range_of(s, c, view);
    append_limited(s, out, begin, view, skip(c, "*") ? number_at(s, c) : 1);
}

void append_word_value(struct simulator *s, struct word word, struct bytes *out)
{
    struct cursor c = {word.text, word.text + word.len, word};
    size_t begin = out->len;
    append_factor(s, &c, out, 0);
    size_t middle = out->len;
    while (skip(&c, "^")) {
        append_factor(s, &c, out, middle);
        if (out->len - middle != middle - begin)
            bad_line(&s->line, "'%.*s' joins %zu and %zu bytes by ^; expected as many on both sides", shown(word.len), word.text,
                     middle - begin, out->len - middle);
        for (size_t i = begin; i < middle; i++)
            out->data[i] ^= out->data[middle + i - begin];
        out->len = middle;
    }
    if (c.p != c.end)
        bad_line(&s->line, "'%.*s' is not understood from '%.*s' on; expected hexadecimal or a name, with [FROM..TO], *TIMES or ^", shown(word.len),
                 word.text, shown((size_t)(c.end - c.p)), c.p);
}

void take_bytes(struct simulator *s, const char *expected, struct bytes *out)
{
    out->len = 0;
    struct word word = take_word(&s->line, expected);
    if (ONE_OF(word, stops))
        bad_line(&s->line, "expected %s before '%.*s'", expected, shown(word.len), word.text);
    append_word_value(s, word, out);
    while (!at_end(&s->line) && !ONE_OF(s->line.words[s->line.next], stops))
        append_word_value(s, s->line.words[s->line.next++], out);
}

void take_bytes_of(struct simulator *s, const char *expected, size_t len, struct bytes *out)
{
    take_bytes(s, expected, out);
    if (out->len != len)
        bad_line(&s->line, "expected %s, %zu bytes, and these are %zu", expected, len, out->len);
}

void need_room(struct simulator *s, const struct name *name, size_t len)
{
    if (!names_have_room(&s->names, name, len))
        bad_line(&s->line, "%zu more bytes in a name; expected at most %zu in all names together", len, NAMES_LIMIT);
}

struct name *take_new_name(struct simulator *s)
{
    struct word word = take_word(&s->line, "a name");
    struct name *name = names_find(&s->names, word.text, word.len);
    if (name != NULL)
        return name;
    for (size_t i = 0; i < word.len; i++)
        if (!name_character(word.text[i]))
            bad_line(&s->line, "'%.*s' cannot be a name; expected letters, digits, '-', '_' and '.'", shown(word.len), word.text);
    if (all_hex(word))
        bad_line(&s->line, "'%.*s' cannot be a name, since it reads as hexadecimal; expected another character in it", shown(word.len), word.text);
    uint64_t number;
    if (number_in(word.text, word.len, &number) || ONE_OF(word, stops) || ONE_OF(word, reserved) || xmm_named(word) >= 0 || register_named(word) != NULL)
        bad_line(&s->line, "'%.*s' cannot be a name, since it means something already; expected another", shown(word.len), word.text);
    need_room(s, NULL, NAME_COST + word.len);
    return names_get(&s->names, word.text, word.len);
}

/* Room is asked for before the call, which is not made in a bad line. */
struct name *take_result(struct simulator *s, size_t len)
{
    if (!accept(&s->line, "->"))
        return NULL;
    struct name *name = take_new_name(s);
    need_room(s, name, len);
    return name;
}

void give_value(struct simulator *s, struct name *name, const uint8_t *data, size_t len)
{
    if (name == NULL)
        return;
    names_assign(&s->names, name, data, len);
    name->given = name->has_value = true;
    name->is_iwkey = false;
    name->line = s->line.number;
}

void take_value_away(struct simulator *s, struct name *name)
{
    if (name == NULL)
        return;
    name->given = true;
    name->has_value = name->is_iwkey = false;
    name->line = s->line.number;
}
