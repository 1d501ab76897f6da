#include "reader.h"

#include <stdio.h>
#include <stdlib.h>
#include <string.h>

#include "bytes.h"
#include "interrupt.h"

void reader_open_file(struct reader *r, int fd)
{
    *r = (struct reader){.fd = fd, .room = 1 << 16};
    r->data = r->buffer = allocate(NULL, r->room);
}

void reader_open_text(struct reader *r, const char *text, size_t len)
{
    *r = (struct reader){.fd = -1, .data = text, .end = len, .ended = true};
}

void reader_close(struct reader *r)
{
    free(r->buffer);
    *r = (struct reader){.fd = -1};
}

/* What there is, behind the bytes not yet given; a buffer that one line fills doubles. */
static enum reading fill(struct reader *r)
{
    size_t rest = r->end - r->begin;
    if (rest > LINE_LIMIT)
        return READING_TOO_LONG;
    memmove(r->buffer, r->buffer + r->begin, rest);
    r->begin = 0;
    r->end = rest;
    if (rest == r->room) {
        r->room *= 2;
        r->data = r->buffer = allocate(r->buffer, r->room);
    }
    fflush(stdout); // an error stays, and is told at the end
    ssize_t got = read_interruptible(r->fd, r->buffer + rest, r->room - rest);
    if (interrupted())
        return READING_INTERRUPTED;
    if (got < 0)
        return READING_ERROR;
    r->end += (size_t)got;
    r->ended = got == 0;
    return READING_LINE;
}

/* Some editors put one in front of UTF-8. */
static void skip_mark(struct reader *r, const char **text, size_t *len)
{
    static const char mark[] = "\xEF\xBB\xBF";
    if (r->consumed != 0 || *len < sizeof mark - 1 || memcmp(*text, mark, sizeof mark - 1) != 0)
        return;
    *text += sizeof mark - 1;
    *len -= sizeof mark - 1;
}

enum reading reader_next(struct reader *r, const char **text, size_t *len)
{
    size_t searched = 0;
    const char *newline = NULL;
    while (newline == NULL) {
        if (r->end > r->begin + searched)
            newline = memchr(r->data + r->begin + searched, '\n', r->end - r->begin - searched);
        searched = r->end - r->begin;
        if (newline != NULL || r->ended)
            break;
        enum reading state = fill(r);
        if (state != READING_LINE)
            return state;
    }
    if (newline == NULL && searched == 0)
        return READING_END;
    *text = r->data + r->begin;
    *len = newline == NULL ? searched : (size_t)(newline - *text);
    size_t taken = *len + (newline != NULL);
    skip_mark(r, text, len);
    r->begin += taken;
    r->consumed += taken;
    if (*len > 0 && (*text)[*len - 1] == '\r')
        (*len)--;
    return *len > LINE_LIMIT ? READING_TOO_LONG : READING_LINE;
}
