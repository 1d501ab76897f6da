#include "selfcheck.h"

#include <stdio.h>
#include <stdlib.h>
#include <string.h>

#include "aes.h"
#include "ctr.h"
#include "handle.h"

enum { FIELDS = 8, FIELD_BYTES = 512, LINE = 4096 };

struct field {
    uint8_t bytes[FIELD_BYTES];
    size_t length;
};

static bool parse_hex(const char *text, struct field *field)
{
    size_t digits = strlen(text);
    field->length = digits / 2;
    if (digits % 2 || field->length > FIELD_BYTES)
        return false;
    for (size_t i = 0; i < field->length; i++) {
        unsigned byte;
        if (sscanf(text + 2 * i, "%2x", &byte) != 1)
            return false;
        field->bytes[i] = (uint8_t)byte;
    }
    return true;
}

static bool equals(const struct field *field, const uint8_t *bytes, size_t length)
{
    return field->length == length && memcmp(field->bytes, bytes, length) == 0;
}

/* key, plaintext, ciphertext */
static bool check_cipher(const struct field *f)
{
    uint8_t out[16], back[16];
    aes_encrypt(f[0].bytes, f[0].length, f[1].bytes, out);
    aes_decrypt(f[0].bytes, f[0].length, f[2].bytes, back);
    return equals(&f[2], out, 16) && equals(&f[1], back, 16);
}

/* a, b, dot(a, b) */
static bool check_dot(const struct field *f)
{
    uint8_t result[16];
    dot(f[0].bytes, f[1].bytes, result);
    return equals(&f[2], result, 16);
}

/* hash key, blocks, result */
static bool check_polyval(const struct field *f)
{
    uint8_t result[16];
    polyval(f[0].bytes, f[1].bytes, f[1].length / 16, result);
    return equals(&f[2], result, 16);
}

static struct iwkey iwkey_of(const struct field *f)
{
    struct iwkey iwkey = {0};
    memcpy(iwkey.integrity, f[0].bytes, 16);
    memcpy(iwkey.encryption, f[1].bytes, 32);
    return iwkey;
}

/* integrity key, encryption key, AAD, key, handle */
static bool check_handle(const struct field *f)
{
    struct iwkey iwkey = iwkey_of(f);
    uint8_t handle[HANDLE_MOST], key[32];
    wrap(&iwkey, f[2].bytes, f[3].bytes, f[3].length, handle);
    return equals(&f[4], handle, HANDLE_HEAD + f[3].length) && unwrap(&iwkey, handle, f[3].length, key) && equals(&f[3], key, f[3].length);
}

/* integrity key, encryption key, a handle that gives no key */
static bool check_refused(const struct field *f)
{
    struct iwkey iwkey = iwkey_of(f);
    uint8_t key[32];
    return !unwrap(&iwkey, f[2].bytes, f[2].length - HANDLE_HEAD, key);
}

/* key, counter block, plaintext, ciphertext */
static bool check_ctr(const struct field *f)
{
    struct field data = f[2];
    ctr_xor(f[0].bytes, f[0].length, f[1].bytes, (struct buffer){data.bytes, data.length});
    return equals(&f[3], data.bytes, data.length);
}

/* the kinds of lines, how many fields they have behind their name, and how many there must be at least, so that no file is empty unnoticed */
static struct vector_kind {
    const char *file, *word;
    int fields;
    bool (*check)(const struct field *fields);
    int least, seen;
} kinds[] = {
    {"fips197.txt", "cipher", 3, check_cipher, 3, 0},     {"rfc8452.txt", "dot", 3, check_dot, 1, 0},
    {"rfc8452.txt", "polyval", 3, check_polyval, 51, 0},  {"handles.txt", "handle", 5, check_handle, 28, 0},
    {"handles.txt", "refused", 3, check_refused, 8, 0},   {"sp800-38a-ctr.txt", "ctr", 4, check_ctr, 14, 0},
};

static bool check_line(struct vector_kind *kind, char *line)
{
    static struct field fields[FIELDS];
    char *word = strtok(line, " \n");
    if (!word || strcmp(word, kind->word) != 0)
        return true;
    char *name = strtok(NULL, " \n");
    bool good = name != NULL;
    for (int i = 0; good && i < kind->fields; i++) {
        char *text = strtok(NULL, " \n");
        good = text && parse_hex(text, &fields[i]);
    }
    good = good && kind->check(fields);
    if (!good)
        fprintf(stderr, "the model does not meet %s %s of %s\n", kind->word, name ? name : "?", kind->file);
    kind->seen++;
    return good;
}

static bool check_kind(const char *directory, struct vector_kind *kind)
{
    char path[512], line[LINE];
    bool good = true;
    snprintf(path, sizeof path, "%s/%s", directory, kind->file);
    FILE *file = fopen(path, "r");
    if (!file) {
        perror(path);
        return false;
    }
    while (fgets(line, sizeof line, file))
        good &= check_line(kind, line);
    fclose(file);
    if (kind->seen < kind->least)
        fprintf(stderr, "%s has %d lines '%s', %d are needed\n", path, kind->seen, kind->word, kind->least);
    return good && kind->seen >= kind->least;
}

bool model_meets_vectors(const char *directory)
{
    bool good = true;
    for (size_t i = 0; i < sizeof kinds / sizeof *kinds; i++)
        good &= check_kind(directory, &kinds[i]);
    return good;
}
