#include "text.h"

static const char digits[] = "0123456789abcdef";

void text_start(struct text *t, char *room, size_t size)
{
    *t = (struct text){.room = room, .size = size};
    room[0] = '\0';
}

static void add_character(struct text *t, char c)
{
    if (t->len + 1 >= t->size) {
        t->cut = true;
        return;
    }
    t->room[t->len++] = c;
    t->room[t->len] = '\0';
}

void text_add(struct text *t, const char *string)
{
    for (; *string != '\0'; string++)
        add_character(t, *string);
}

static void add_number(struct text *t, uint64_t number, unsigned base)
{
    char reversed[20];
    size_t len = 0;
    do {
        reversed[len++] = digits[number % base];
        number /= base;
    } while (number > 0);
    while (len > 0)
        add_character(t, reversed[--len]);
}

void text_add_hexadecimal(struct text *t, uint64_t number)
{
    text_add(t, "0x");
    add_number(t, number, 16);
}

void text_add_decimal(struct text *t, uint64_t number)
{
    add_number(t, number, 10);
}

void text_add_bytes(struct text *t, const uint8_t *data, size_t len)
{
    size_t whole = (t->size - 1 - t->len) / 2;
    char *at = t->room + t->len;
    t->cut |= len > whole;
    for (size_t i = 0; i < len && i < whole; i++) {
        *at++ = digits[data[i] >> 4];
        *at++ = digits[data[i] & 15];
    }
    *at = '\0';
    t->len = (size_t)(at - t->room);
}

/* A table, because the digits of keys and blocks are what a branch predicts worst. Values are one too large, so that 0 is "none". */
static const uint8_t digit_values[256] = {
    ['0'] = 1,  ['1'] = 2,  ['2'] = 3,  ['3'] = 4,  ['4'] = 5,  ['5'] = 6,  ['6'] = 7,  ['7'] = 8,  ['8'] = 9,  ['9'] = 10, ['a'] = 11,
    ['b'] = 12, ['c'] = 13, ['d'] = 14, ['e'] = 15, ['f'] = 16, ['A'] = 11, ['B'] = 12, ['C'] = 13, ['D'] = 14, ['E'] = 15, ['F'] = 16,
};

int hex_digit(char c)
{
    return digit_values[(uint8_t)c] - 1;
}
