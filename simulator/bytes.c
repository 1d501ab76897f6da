#include "bytes.h"

#include <stdio.h>
#include <stdlib.h>
#include <string.h>

#include "text.h"

void *allocate(void *old, size_t size)
{
    void *p = realloc(old, size);
    if (p == NULL) {
        fflush(stdout);
        fputs("keylocker-simulator: out of memory\n", stderr);
        exit(2);
    }
    return p;
}

void bytes_reserve(struct bytes *b, size_t more)
{
    if (more <= b->room - b->len)
        return;
    b->room = 2 * (b->len + more);
    b->data = allocate(b->data, b->room);
}

void bytes_append(struct bytes *b, const uint8_t *data, size_t len)
{
    bytes_reserve(b, len);
    if (len > 0)
        memcpy(b->data + b->len, data, len);
    b->len += len;
}

void bytes_assign(struct bytes *b, const uint8_t *data, size_t len)
{
    if (len > b->room) {
        b->data = allocate(b->data, len);
        b->room = len;
    }
    b->len = 0;
    bytes_append(b, data, len);
}

void bytes_print(struct bytes *b, const char *format, va_list arguments)
{
    va_list again;
    va_copy(again, arguments);
    int len = vsnprintf(NULL, 0, format, arguments);
    if (len > 0) {
        bytes_reserve(b, (size_t)len + 1);
        vsnprintf((char *)b->data + b->len, (size_t)len + 1, format, again);
        b->len += (size_t)len;
    }
    va_end(again);
}

void bytes_free(struct bytes *b)
{
    free(b->data);
    *b = (struct bytes){0};
}

void put_hex(const uint8_t *data, size_t len)
{
    enum { SOME = 128 };
    char room[2 * SOME + 1];
    for (size_t i = 0; i < len; i += SOME) {
        struct text t;
        text_start(&t, room, sizeof room);
        text_add_bytes(&t, data + i, len - i < SOME ? len - i : SOME);
        fwrite(room, 1, t.len, stdout);
    }
}
