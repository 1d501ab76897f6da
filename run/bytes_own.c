/* What the compiler and the library call for bytes. A program may have functions of these names, and they may do anything: those are the program's, these the
 * object's own. */
#include <stddef.h>
#include <stdint.h>

void *memcpy(void *restrict to, const void *restrict from, size_t len)
{
    void *place = to;
    __asm__ volatile("rep movsb" : "+D"(place), "+S"(from), "+c"(len) : : "memory");
    return to;
}

void *memset(void *to, int byte, size_t len)
{
    void *place = to;
    __asm__ volatile("rep stosb" : "+D"(place), "+c"(len) : "a"(byte) : "memory");
    return to;
}

int memcmp(const void *left, const void *right, size_t len)
{
    const uint8_t *a = left, *b = right;
    for (; len > 0; a++, b++, len--)
        if (*a != *b)
            return *a < *b ? -1 : 1;
    return 0;
}
