/* Writes numbers and bytes as the trace language has them, into a room of fixed size. Nothing but memory is touched, so a signal handler may do it, too. */
#ifndef TEXT_H
#define TEXT_H

#include <stdbool.h>
#include <stddef.h>
#include <stdint.h>

struct text {
    char *room;
    size_t size, len; /* a NUL is always behind the text; what does not fit is left out */
    bool cut;
};

void text_start(struct text *t, char *room, size_t size);
void text_add(struct text *t, const char *string);

/* 0x and digits; digits. */
void text_add_hexadecimal(struct text *t, uint64_t number);
void text_add_decimal(struct text *t, uint64_t number);

/* Two digits for each byte. */
void text_add_bytes(struct text *t, const uint8_t *data, size_t len);

/* The value of a hexadecimal digit, -1 for another character. */
int hex_digit(char c);

#endif
