#include "line.h"

#include <inttypes.h>
#include <stdarg.h>
#include <stdio.h>
#include <stdlib.h>
#include <string.h>

#include "bytes.h"
#include "output.h"
#include "progress.h"
#include "text.h"

int shown(size_t len)
{
    return len < 60 ? (int)len : 60;
}

void bad_line(const struct line *line, const char *format, ...)
{
    progress_erase();
    output_flushed();
    fprintf(stderr, "%s:%zu: ", line->file, line->number);
    va_list arguments;
    va_start(arguments, format);
    vfprintf(stderr, format, arguments);
    va_end(arguments);
    fputc('\n', stderr);
    if (line->behind != NULL)
        longjmp(*line->behind, 1);
    exit(2);
}

static bool blank(char c)
{
    return c == ' ' || c == '\t';
}

static bool in_word(char c)
{
    return (unsigned char)c > ' ';
}

/* Whatever the locale. */
static char lower(char c)
{
    return c >= 'A' && c <= 'Z' ? (char)(c - 'A' + 'a') : c;
}

bool word_is(struct word word, const char *keyword)
{
    size_t i = 0;
    while (i < word.len && keyword[i] != '\0' && lower(word.text[i]) == keyword[i])
        i++;
    return i == word.len && keyword[i] == '\0';
}

static void add_word(struct line *line, const char *text, size_t len)
{
    if (line->count == line->room) {
        line->room = line->room == 0 ? 64 : 2 * line->room;
        line->words = allocate(line->words, line->room * sizeof *line->words);
    }
    line->words[line->count++] = (struct word){text, len};
}

/* Text to be printed may have any character; elsewhere # begins a comment. */
static size_t statement_len(const char *text, size_t len)
{
    if (len >= 3 && word_is((struct word){text, 3}, "say") && (len == 3 || blank(text[3])))
        return len;
    const char *comment = memchr(text, '#', len);
    return comment == NULL ? len : (size_t)(comment - text);
}

void line_split(struct line *line, const char *text, size_t len)
{
    while (len > 0 && blank(*text)) {
        text++;
        len--;
    }
    len = statement_len(text, len);
    while (len > 0 && blank(text[len - 1]))
        len--;
    line->text = text;
    line->len = len;
    line->count = line->next = 0;
    for (size_t i = 0; i < len;) {
        size_t begin = i;
        while (i < len && in_word(text[i]))
            i++;
        if (i == begin)
            bad_line(line, "a control character (byte 0x%02x); expected plain text", (unsigned)(unsigned char)text[i]);
        add_word(line, text + begin, i - begin);
        while (i < len && blank(text[i]))
            i++;
    }
}

void line_free(struct line *line)
{
    free(line->words);
    *line = (struct line){0};
}

bool number_in(const char *text, size_t len, uint64_t *number)
{
    bool hexadecimal = len > 2 && text[0] == '0' && (text[1] == 'x' || text[1] == 'X');
    uint64_t base = hexadecimal ? 16 : 10;
    size_t i = hexadecimal ? 2 : 0;
    *number = 0;
    if (i == len)
        return false;
    for (; i < len; i++) {
        uint64_t digit = (uint64_t)hex_digit(text[i]); // not below base where it is none
        if (digit >= base || *number > (UINT64_MAX - digit) / base)
            return false;
        *number = *number * base + digit;
    }
    return true;
}

bool at_end(const struct line *line)
{
    return line->next == line->count;
}

bool next_is(const struct line *line, const char *keyword)
{
    return !at_end(line) && word_is(line->words[line->next], keyword);
}

bool accept(struct line *line, const char *keyword)
{
    bool is = next_is(line, keyword);
    line->next += is;
    return is;
}

struct word take_word(struct line *line, const char *expected)
{
    if (at_end(line)) {
        struct word last = line->words[line->count - 1];
        bad_line(line, "expected %s after '%.*s'", expected, shown(last.len), last.text);
    }
    return line->words[line->next++];
}

void take_keyword(struct line *line, const char *keyword)
{
    struct word word = take_word(line, keyword);
    if (!word_is(word, keyword))
        bad_line(line, "expected '%s', not '%.*s'", keyword, shown(word.len), word.text);
}

uint64_t take_number(struct line *line, const char *expected, uint64_t most)
{
    struct word word = take_word(line, expected);
    uint64_t number;
    if (!number_in(word.text, word.len, &number) || number > most)
        bad_line(line, "expected %s, a number from 0 to %" PRIu64 " (decimal, or hexadecimal with 0x), not '%.*s'", expected, most,
                 shown(word.len), word.text);
    return number;
}

uint32_t take_choice(struct line *line, const struct choice *choices, size_t count, uint32_t most, const char *expected)
{
    struct word word = take_word(line, expected);
    uint64_t number;
    for (size_t i = 0; i < count; i++)
        if (word_is(word, choices[i].word))
            return choices[i].number;
    if (!number_in(word.text, word.len, &number) || number > most)
        bad_line(line, "expected %s, not '%.*s'", expected, shown(word.len), word.text);
    return (uint32_t)number;
}

void take_end(const struct line *line)
{
    if (!at_end(line)) {
        struct word word = line->words[line->next];
        bad_line(line, "expected the end of the line, not '%.*s'", shown(word.len), word.text);
    }
}
