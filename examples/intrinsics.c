/* Seals one block by the compiler's own intrinsics for Key Locker. It knows nothing of an emulator: compiled with "gcc -O2 -mkl intrinsics.c -o intrinsics", it is
 * run by "keylocker-run ./intrinsics" where the processor lacks the instructions. (Not by clang 14, whose intrinsics clear the block where the handle opens.) */
#include <immintrin.h>
#include <stdio.h>

int main(void)
{
    unsigned char handle[48], block[16];
    __m128i data = _mm_set_epi64x(0x7766554433221100 + 0x8888888888888888, 0x7766554433221100); /* bytes 00, 11, 22 .. ff */

    /* The key has the bytes 00 to 0f. The handle is all that is needed from here on. */
    _mm_encodekey128_u32(0, _mm_set_epi64x(0x0f0e0d0c0b0a0908, 0x0706050403020100), handle);

    if (_mm_aesenc128kl_u8(&data, data, handle) != 0) {
        fprintf(stderr, "the handle does not open\n");
        return 1;
    }
    _mm_storeu_si128((__m128i *)block, data);
    for (int i = 0; i < 16; i++)
        printf("%02x", block[i]);
    printf("\n"); /* FIPS 197, C.1: 69c4e0d86a7b0430d8cdb78070b4c55a */
    return 0;
}
