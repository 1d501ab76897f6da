/* Byte strings that grow. */
#ifndef BYTES_H
#define BYTES_H

#include <stdarg.h>
#include <stddef.h>
#include <stdint.h>

struct bytes {
    uint8_t *data;
    size_t len, room;
};

/* Exits with status 2 where there is no memory, as all allocation here does. */
void *allocate(void *old, size_t size);

/* Room for more bytes behind those there are. */
void bytes_reserve(struct bytes *b, size_t more);

void bytes_append(struct bytes *b, const uint8_t *data, size_t len);

/* In place of those there are, with no more room than they need. */
void bytes_assign(struct bytes *b, const uint8_t *data, size_t len);
void bytes_free(struct bytes *b);

/* Text behind what there is, as by vprintf, without a NUL. */
void bytes_print(struct bytes *b, const char *format, va_list arguments) __attribute__((format(printf, 2, 0)));

/* In hexadecimal, to standard output. */
void put_hex(const uint8_t *data, size_t len);

#endif
