// Measures the proved key wrapping against the two cores in C of keywrap_baseline.h, after checking that
// all three compute the same. A missed bar is printed and is no failure of the program, since a busy
// machine can be the reason; a wrong result is one.
#include "aes_baseline.h"
#include "keywrap_baseline.h"
#include "measure.h"

#include <stdbool.h>
#include <stdio.h>
#include <stdlib.h>
#include <string.h>

// The proved library, target/staticlib/libkeywrap_c.a.
void polyval_blocks(const uint8_t h[16], const uint8_t *data, size_t len, uint8_t result[16]);
void keywrap_wrap(uint8_t size, const uint8_t integrity[16], const uint8_t encryption[32], const uint8_t aad[16],
                  const uint8_t key[32], uint8_t handle[64]);
uint8_t keywrap_unwrap(uint8_t size, const uint8_t integrity[16], const uint8_t encryption[32],
                       const uint8_t handle[64], uint8_t key[32]);

enum op { POLYVAL, WRAP, UNWRAP };
static const char *const op_names[] = {"POLYVAL", "wrap", "unwrap"};

struct core {
    polyval_fn *polyval_blocks;
    wrap_fn *wrap;
    unwrap_fn *unwrap;
};

static const struct core cores[CORES] = {
    [PROVED] = {polyval_blocks, keywrap_wrap, keywrap_unwrap},
    [BYTES] = {bytes_polyval_blocks, bytes_wrap, bytes_unwrap},
    [TTABLES] = {ttables_polyval_blocks, ttables_wrap, ttables_unwrap},
};

struct block {
    uint8_t bytes[BLOCK_BYTES];
};

struct iwkey {
    struct block integrity;
    uint8_t encryption[32];
};

static int handle_bits(uint8_t size) { return 2 * 128 + key_bits(size); }

// ---- the check

static void require(bool holds, int core, enum op op, int bits, const char *what)
{
    if (holds)
        return;
    fprintf(stderr, "bench: %s %s of %d bits: %s\n", core_names[core], op_names[op], bits, what);
    exit(1);
}

static void check_polyval(const uint8_t h[16], const uint8_t *data, size_t len, const uint8_t expected[16])
{
    struct block result;
    for (int i = 0; i < CORES; i++) {
        fill_random(result.bytes, sizeof result);
        cores[i].polyval_blocks(h, data, len, result.bytes);
        require(memcmp(result.bytes, expected, sizeof result) == 0, i, POLYVAL, 8 * (int)len, "wrong result");
    }
}

// Holds every core to what it has to make of handle: key, or a refusal where key is NULL.
static void check_unwrap(uint8_t size, const struct iwkey *iw, const uint8_t handle[64], const uint8_t *key)
{
    uint8_t expected[KEY_BYTES] = {0}, opened[KEY_BYTES];
    if (key)
        memcpy(expected, key, (size_t)key_bits(size) / 8);
    for (int i = 0; i < CORES; i++) {
        fill_random(opened, sizeof opened);
        uint8_t answer = cores[i].unwrap(size, iw->integrity.bytes, iw->encryption, handle, opened);
        require(answer == (key ? 1 : 0), i, UNWRAP, key_bits(size), "wrong answer");
        require(memcmp(opened, expected, sizeof opened) == 0, i, UNWRAP, key_bits(size), "wrong key");
    }
}

// Holds every core to making handle of key and its AAD, and to opening it.
static void check_handle(uint8_t size, const struct iwkey *iw, const uint8_t key[32], const uint8_t handle[64])
{
    uint8_t made[HANDLE_BYTES];
    for (int i = 0; i < CORES; i++) {
        fill_random(made, sizeof made);
        cores[i].wrap(size, iw->integrity.bytes, iw->encryption, handle, key, made);
        require(memcmp(made, handle, sizeof made) == 0, i, WRAP, key_bits(size), "wrong handle");
    }
    check_unwrap(size, iw, handle, key);
}

// A random key under a random IWKey, and the handle that the byte-wise core makes of it.
static void random_handle(uint8_t size, struct iwkey *iw, uint8_t key[32], uint8_t handle[64])
{
    struct block aad;
    fill_random(aad.bytes, sizeof aad);
    fill_random((uint8_t *)iw, sizeof *iw);
    fill_random(key, KEY_BYTES);
    bytes_wrap(size, iw->integrity.bytes, iw->encryption, aad.bytes, key, handle);
}

static void check_agreement(uint8_t size)
{
    struct iwkey iw;
    uint8_t key[KEY_BYTES], handle[HANDLE_BYTES];
    random_handle(size, &iw, key, handle);
    check_handle(size, &iw, key, handle);

    size_t end = (size_t)handle_bits(size) / 8; // what comes after it is no part of the handle
    fill_random(handle + end, sizeof handle - end);
    check_unwrap(size, &iw, handle, key);
}

static void check_polyval_agreement(size_t len)
{
    uint8_t data[10 * BLOCK_BYTES];
    struct block h, expected;
    fill_random(h.bytes, sizeof h);
    fill_random(data, sizeof data);
    bytes_polyval_blocks(h.bytes, data, len, expected.bytes);
    check_polyval(h.bytes, data, len, expected.bytes);
}

static void flip(uint8_t *bytes, int bit) { bytes[bit / 8] ^= (uint8_t)(1 << bit % 8); }

static void check_flips(uint8_t size)
{
    struct iwkey iw;
    uint8_t key[KEY_BYTES], handle[HANDLE_BYTES];
    random_handle(size, &iw, key, handle);
    for (int bit = 0; bit < handle_bits(size); bit++) {
        flip(handle, bit);
        check_unwrap(size, &iw, handle, NULL);
        flip(handle, bit);
    }
}

// Under a zero integrity key POLYVAL is zero for every input. Then only a changed tag is seen, and a
// changed ciphertext opens to a changed key.
static void check_zero_integrity(uint8_t size)
{
    struct iwkey iw;
    uint8_t key[KEY_BYTES], handle[HANDLE_BYTES], aad[16];
    random_handle(size, &iw, key, handle);
    memcpy(aad, handle, sizeof aad);
    memset(&iw.integrity, 0, sizeof iw.integrity);
    bytes_wrap(size, iw.integrity.bytes, iw.encryption, aad, key, handle);
    for (int bit = 0; bit < handle_bits(size); bit++) {
        uint8_t opened[KEY_BYTES];
        memcpy(opened, key, sizeof opened);
        if (bit >= 256)
            flip(opened, bit - 256);
        flip(handle, bit);
        check_unwrap(size, &iw, handle, bit / 128 == 1 ? NULL : opened);
        flip(handle, bit);
    }
}

// RFC 8452, appendix A.
static void check_rfc8452(void)
{
    static const uint8_t h[16] = {0x25, 0x62, 0x93, 0x47, 0x58, 0x92, 0x42, 0x76,
                                  0x1d, 0x31, 0xf8, 0x26, 0xba, 0x4b, 0x75, 0x7b};
    static const uint8_t data[32] = {0x4f, 0x4f, 0x95, 0x66, 0x8c, 0x83, 0xdf, 0xb6, 0x40, 0x17, 0x62,
                                     0xbb, 0x2d, 0x01, 0xa2, 0x62, 0xd1, 0xa2, 0x4d, 0xdd, 0x27, 0x21,
                                     0xd0, 0x06, 0xbb, 0xe4, 0x5f, 0x20, 0xd3, 0xc9, 0xf3, 0x62};
    static const uint8_t result[16] = {0xf7, 0xa3, 0xb4, 0x7b, 0x84, 0x61, 0x19, 0xfa,
                                       0xe5, 0xb7, 0x86, 0x6c, 0xf5, 0xe5, 0xb7, 0x7e};
    check_polyval(h, data, sizeof data, result);
}

// The only complete handle in Intel's 343965-001US, the footnote of chapter 6: all inputs are zero. It
// gives tag and ciphertext as integers, so that their bytes stand in reverse here.
static void check_intel(void)
{
    static const struct iwkey iw = {0};
    static const uint8_t key[KEY_BYTES] = {0};
    static const uint8_t handle[HANDLE_BYTES] = {
        [16] = 0xdc, 0x95, 0xc0, 0x78, 0xa2, 0x40, 0x89, 0x89, 0xad, 0x48, 0xa2, 0x14, 0x92, 0x84, 0x20, 0x87,
        [32] = 0x08, 0xc3, 0x74, 0x84, 0x8c, 0x22, 0x82, 0x33, 0xc2, 0xb3, 0x4f, 0x33, 0x2b, 0xd2, 0xe9, 0xd3};
    check_handle(0, &iw, key, handle);
}

// ---- the check of the counter, which needs keys with a chosen tag

static struct block sum(struct block a, struct block b)
{
    for (int i = 0; i < BLOCK_BYTES; i++)
        a.bytes[i] ^= b.bytes[i];
    return a;
}

// RFC 8452's dot: a b x^-128, which is POLYVAL of one block.
static struct block dot(struct block a, struct block b)
{
    struct block product;
    bytes_polyval_blocks(b.bytes, a.bytes, BLOCK_BYTES, product.bytes);
    return product;
}

// The inverse for dot: h to the power 2^128 - 2, the product of h^2, h^4, h^8 and so on.
static struct block dot_inverse(struct block h)
{
    struct block inverse = {{[0] = 0x01, [15] = 0xc2}}; // x^128, the one of dot
    for (int i = 1; i < 128; i++) {
        h = dot(h, h);
        inverse = dot(inverse, h);
    }
    return inverse;
}

// Solves POLYVAL for the first half of a 256-bit key, so that its tag is as wanted. There is none if the
// block that encrypts to the tag has its top bit set.
static bool key_with_tag(const struct iwkey *iw, struct block aad, struct block tag, uint8_t key[32])
{
    static const struct block lengths = {{[0] = 0x80, [9] = 0x01}}; // 128 and 256 bits
    struct block inverse = dot_inverse(iw->integrity), first, second;
    uint32_t w[MAX_WORDS];
    bytes_key_expansion(AES_256, iw->encryption, w);
    bytes_decrypt_block(AES_256, w, tag.bytes);
    if (tag.bytes[15] & 0x80)
        return false;
    fill_random(second.bytes, sizeof second);
    // backwards through POLYVAL, whose step adds a block and takes the product with the integrity key
    first = sum(dot(tag, inverse), lengths);
    first = sum(dot(first, inverse), second);
    first = sum(dot(first, inverse), dot(aad, iw->integrity));
    memcpy(key, first.bytes, sizeof first);
    memcpy(key + 16, second.bytes, sizeof second);
    return true;
}

static void store_counter(struct block *block, uint32_t counter)
{
    for (int i = 0; i < 4; i++)
        block->bytes[i] = (uint8_t)(counter >> 8 * i);
}

// A handle whose first counter block starts with the given counter, built from the tag on.
static void check_counter(uint32_t counter)
{
    struct { // the handle
        struct block aad, tag, ciphertext[2];
    } h;
    struct iwkey iw;
    uint8_t key[KEY_BYTES];
    uint32_t w[MAX_WORDS];
    fill_random((uint8_t *)&iw, sizeof iw);
    fill_random(h.aad.bytes, sizeof h.aad);
    do {
        fill_random(h.tag.bytes, sizeof h.tag);
        store_counter(&h.tag, counter);
    } while (!key_with_tag(&iw, h.aad, h.tag, key));

    bytes_key_expansion(AES_256, iw.encryption, w);
    for (uint32_t i = 0; i < 2; i++) {
        struct block stream = h.tag, half;
        stream.bytes[15] |= 0x80;
        store_counter(&stream, counter + i);
        bytes_encrypt_block(AES_256, w, stream.bytes);
        memcpy(half.bytes, key + 16 * i, sizeof half);
        h.ciphertext[i] = sum(half, stream);
    }
    check_handle(AES_256, &iw, key, (const uint8_t *)&h);
}

static void check_all(void)
{
    check_rfc8452();
    check_intel();
    for (size_t len = 0; len < 10 * BLOCK_BYTES; len++) // a part of a block is left out
        for (int i = 0; i < 10; i++)
            check_polyval_agreement(len);
    for (uint8_t size = 0; size < 2; size++) {
        for (int i = 0; i < 1000; i++)
            check_agreement(size);
        for (int i = 0; i < 3; i++)
            check_flips(size);
        check_zero_integrity(size);
    }
    check_agreement(UINT8_MAX); // any size but 0 is AES-256
    static const uint32_t counters[] = {0xff, 0xffff, 0xffffff, 0x7fffffff, UINT32_MAX};
    for (size_t i = 0; i < sizeof counters / sizeof *counters; i++)
        check_counter(counters[i]);
    puts("All three cores agree on RFC 8452's POLYVAL example, on Intel's handle, on random keys and on handles\n"
         "with any one bit changed, and where the counter runs over.\n");
}

// ---- the measurement

enum { MAX_BLOCKS = 256, HANDLES = 64 };

static struct iwkey iw;
static _Alignas(64) uint8_t data[2][MAX_BLOCKS * BLOCK_BYTES], made[2][HANDLE_BYTES];
static uint8_t handles[2][HANDLES][HANDLE_BYTES]; // to unwrap, by size

static void make_inputs(void)
{
    fill_random((uint8_t *)&iw, sizeof iw);
    fill_random((uint8_t *)data, sizeof data);
    fill_random((uint8_t *)made, sizeof made);
    for (uint8_t size = 0; size < 2; size++)
        for (int i = 0; i < HANDLES; i++) {
            uint8_t input[16 + KEY_BYTES];
            fill_random(input, sizeof input);
            bytes_wrap(size, iw.integrity.bytes, iw.encryption, input, input + 16, handles[size][i]);
        }
}

// What is called, as often as reps says. POLYVAL and wrap go each time on the result of the last, from
// one buffer to the other and back, and unwrap goes through many handles: on the same bits every time,
// a processor would learn what branches on them do.
static void repeat(const struct core *core, const struct row *row, size_t reps)
{
    uint8_t key[KEY_BYTES];
    if (row->op == POLYVAL) {
        for (size_t i = 0; i < reps; i++)
            core->polyval_blocks(iw.integrity.bytes, data[i % 2], row->blocks * BLOCK_BYTES, data[(i + 1) % 2]);
    } else if (row->op == WRAP) {
        for (size_t i = 0; i < reps; i++) // the tag becomes the AAD, the ciphertext the key
            core->wrap(row->size, iw.integrity.bytes, iw.encryption, made[i % 2] + 16, made[i % 2] + 32,
                       made[(i + 1) % 2]);
    } else {
        for (size_t i = 0; i < reps; i++)
            core->unwrap(row->size, iw.integrity.bytes, iw.encryption, handles[row->size][i % HANDLES], key);
    }
}

static double slice_ns(int core, const struct row *row, size_t reps)
{
    double start = now_ns();
    repeat(&cores[core], row, reps);
    return now_ns() - start;
}

static void print_label(const struct row *row)
{
    printf("%-8s", op_names[row->op]);
    if (row->blocks)
        printf("%12zu blocks    ", row->blocks);
    else
        printf("%12d bits      ", key_bits(row->size));
}

// ---- the bars

static const struct bar bars[] = {
    {"4 blocks", 4, BYTES, 0.60},
    {"256 blocks", 256, BYTES, 0.60},
    {"wrap, unwrap", 0, BYTES, 0.60},
    {"wrap, unwrap", 0, TTABLES, 2.00},
};
static const struct bar goal = {"wrap, unwrap", 0, TTABLES, 1.00};

static void print_worst(const struct row *worst)
{
    if (worst->blocks)
        printf("%s\n", op_names[worst->op]);
    else
        printf("%s %d\n", op_names[worst->op], key_bits(worst->size));
}

int main(void)
{
    struct row rows[] = {
        {.op = POLYVAL, .blocks = 3}, {.op = POLYVAL, .blocks = 4}, {.op = POLYVAL, .blocks = MAX_BLOCKS},
        {.op = WRAP, .size = 0},      {.op = WRAP, .size = 1},
        {.op = UNWRAP, .size = 0},    {.op = UNWRAP, .size = 1},
    };
    size_t count = sizeof rows / sizeof *rows;

    sbox_init();
    ttables_init();
    check_all();
    make_inputs();
    measure_all(rows, count, slice_ns);
    print_head("ns per block, wrap or unwrap");
    for (size_t i = 0; i < count; i++) {
        print_label(&rows[i]);
        print_figures(&rows[i]);
    }
    puts("");
    for (size_t i = 0; i < sizeof bars / sizeof *bars; i++)
        print_worst(print_bar(&bars[i], rows, count, "pass", "MISSED"));
    print_worst(print_bar(&goal, rows, count, "goal met", "goal not met"));
    return 0;
}
