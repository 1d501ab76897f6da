#include "iwkey.h"

#include <errno.h>
#include <stdbool.h>
#include <stdio.h>
#include <string.h>
#include <sys/random.h>

#include "fail.h"
#include "options.h"
#include "text.h"

void iwkey_random(uint8_t iwkey[IWKEY_BYTES])
{
    if (getrandom(iwkey, IWKEY_BYTES, 0) != IWKEY_BYTES)
        fail(EXIT_OURS, "no random bytes for an IWKey: %s", strerror(errno));
}

/* Digits, with blanks and line ends among them wherever. */
static bool take_digits(const uint8_t *text, size_t len, uint8_t iwkey[IWKEY_BYTES])
{
    size_t digits = 0;
    for (size_t i = 0; i < len; i++) {
        int digit = hex_digit((char)text[i]);
        if (digit < 0 && strchr(" \t\r\n", text[i]) != NULL && text[i] != '\0')
            continue;
        if (digit < 0 || digits == 2 * IWKEY_BYTES)
            return false;
        iwkey[digits / 2] = (uint8_t)(digits % 2 == 0 ? digit << 4 : iwkey[digits / 2] | digit);
        digits++;
    }
    return digits == 2 * IWKEY_BYTES;
}

/* Half an IWKey in digits is no whole one in bytes. */
static bool all_digits(const uint8_t text[IWKEY_BYTES])
{
    size_t digits = 0;
    while (digits < IWKEY_BYTES && hex_digit((char)text[digits]) >= 0)
        digits++;
    return digits == IWKEY_BYTES;
}

void iwkey_read(const char *path, uint8_t iwkey[IWKEY_BYTES])
{
    uint8_t text[1024];
    FILE *file = fopen(path, "rbe");
    if (file == NULL)
        fail(EXIT_OURS, "%s: %s", path, strerror(errno));
    size_t len = fread(text, 1, sizeof text, file);
    if (ferror(file))
        fail(EXIT_OURS, "%s: %s", path, strerror(errno));
    fclose(file);
    if (len == IWKEY_BYTES && !all_digits(text))
        memcpy(iwkey, text, IWKEY_BYTES);
    else if (!take_digits(text, len, iwkey))
        fail(EXIT_OURS, "%s: not an IWKey: %d bytes or %d hexadecimal digits are expected", path, IWKEY_BYTES, 2 * IWKEY_BYTES);
}
