#include "answer.h"

#include <stdarg.h>
#include <stdio.h>

static void add_arguments(struct simulator *s, const char *format, va_list arguments)
{
    if (!s->options.quiet)
        bytes_print(&s->answer, format, arguments);
}

void add_answer(struct simulator *s, const char *format, ...)
{
    va_list arguments;
    va_start(arguments, format);
    add_arguments(s, format, arguments);
    va_end(arguments);
}

void end_answer(struct simulator *s)
{
    if (s->options.quiet)
        return;
    if (s->options.json) {
        add_answer(s, "\n");
        return;
    }
    fputs("        ", stdout);
    fwrite(s->answer.data, 1, s->answer.len, stdout);
    putchar('\n');
    s->answer.len = 0;
}

void print_answer(struct simulator *s, const char *format, ...)
{
    va_list arguments;
    va_start(arguments, format);
    add_arguments(s, format, arguments);
    va_end(arguments);
    end_answer(s);
}
