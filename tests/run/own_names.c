/* A program that has functions with names of the C library's, which are not for others to call. */
#include <immintrin.h>
#include <stdlib.h>
#include <string.h>

int open(const char *path, int flags, ...)
{
    (void)path, (void)flags;
    abort();
}

int fstat(int fd, void *status)
{
    (void)fd, (void)status;
    abort();
}

void *mmap(void *address, size_t len, int protection, int flags, int fd, long offset)
{
    (void)address, (void)len, (void)protection, (void)flags, (void)fd, (void)offset;
    abort();
}

static int armed;

void *memset(void *to, int byte, size_t len)
{
    volatile unsigned char room[65536];
    for (size_t i = 0; armed && i < sizeof room; i++)
        room[i] = 1;
    for (size_t i = 0; i < len; i++)
        ((volatile unsigned char *)to)[i] = (unsigned char)byte;
    return to;
}

int main(void)
{
    unsigned char handle[48];
    __m128i block = _mm_set1_epi8(1), in = block;
    armed = 1;
    _mm_encodekey128_u32(0, block, handle);
    return _mm_aesenc128kl_u8(&block, in, handle);
}
