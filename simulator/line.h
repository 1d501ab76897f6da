/* One line of a trace: its words, and what is said where it is bad. */
#ifndef LINE_H
#define LINE_H

#include <setjmp.h>
#include <stdbool.h>
#include <stddef.h>
#include <stdint.h>

struct word {
    const char *text; /* no NUL behind it */
    size_t len;
};

/* A word that stands for a number. */
struct choice {
    const char *word;
    uint32_t number;
};

struct line {
    const char *file;
    size_t number;
    const char *text; /* the statement, without comment and without blanks around it */
    size_t len;
    struct word *words;
    size_t count, room;
    size_t next; /* the word to be taken next */
    jmp_buf *behind; /* where a bad line goes on, or none */
};

/* Says on standard error what is wrong with the line and what was expected, and exits with status 2 where the run does not go on behind it. Nothing of a line
 * is done before all of it is known to be good. */
_Noreturn void bad_line(const struct line *line, const char *format, ...) __attribute__((format(printf, 2, 3)));

void line_split(struct line *line, const char *text, size_t len);
void line_free(struct line *line);

/* Whether the word is the keyword (lower case), in whatever case it is written. */
bool word_is(struct word word, const char *keyword);

/* A number in decimal, or in hexadecimal behind 0x. */
bool number_in(const char *text, size_t len, uint64_t *number);

/* The words of the line in turn. What is expected there is told where it is missing. */
bool at_end(const struct line *line);
bool next_is(const struct line *line, const char *keyword);
bool accept(struct line *line, const char *keyword);
struct word take_word(struct line *line, const char *expected);
void take_keyword(struct line *line, const char *keyword);
uint64_t take_number(struct line *line, const char *expected, uint64_t most);
void take_end(const struct line *line);

/* One of the choices, or a number up to most. What is expected names both. */
uint32_t take_choice(struct line *line, const struct choice *choices, size_t count, uint32_t most, const char *expected);
#define TAKE_CHOICE(line, choices, most, expected) take_choice(line, choices, sizeof choices / sizeof *choices, most, expected)

/* For printf's %.*s: words in messages are cut. */
int shown(size_t len);

#endif
