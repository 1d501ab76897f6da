// Measures the proved AES library against the two cores in C of aes_baseline.h, after checking that
// all three compute the same. A missed bar is printed and is no failure of the program, since a busy
// machine can be the reason; a wrong result is one.
#include "aes_baseline.h"
#include "measure.h"

#include <math.h>
#include <stdbool.h>
#include <stdio.h>
#include <stdlib.h>
#include <string.h>

// The proved library, target/staticlib/libaes_c.a.
void aes_key_expansion(uint8_t size, const uint8_t key[32], uint32_t w[60]);
void aes_encrypt_block(uint8_t size, const uint32_t w[60], uint8_t block[16]);
void aes_decrypt_block(uint8_t size, const uint32_t w[60], uint8_t block[16]);
void aes_encrypt_blocks(uint8_t size, const uint32_t w[60], uint8_t *data, size_t len);
void aes_decrypt_blocks(uint8_t size, const uint32_t w[60], uint8_t *data, size_t len);

typedef void block_fn(uint8_t size, const uint32_t w[60], uint8_t block[16]);
typedef void blocks_fn(uint8_t size, const uint32_t w[60], uint8_t *data, size_t len);

enum op { ENCRYPT, DECRYPT, KEY_SCHEDULE };
static const char *const op_names[] = {"encrypt", "decrypt", "key schedule"};

struct core {
    void (*key_expansion)(uint8_t size, const uint8_t key[32], uint32_t w[60]);
    void (*inv_key_expansion)(uint8_t size, uint32_t w[60]); // NULL: both directions take the same w
    block_fn *block[2];                                      // by op, ENCRYPT or DECRYPT
    blocks_fn *blocks[2];
};

static const struct core cores[CORES] = {
    [PROVED] = {aes_key_expansion, NULL,
                {aes_encrypt_block, aes_decrypt_block}, {aes_encrypt_blocks, aes_decrypt_blocks}},
    [BYTES] = {bytes_key_expansion, NULL,
               {bytes_encrypt_block, bytes_decrypt_block}, {bytes_encrypt_blocks, bytes_decrypt_blocks}},
    [TTABLES] = {ttables_key_expansion, ttables_inv_key_expansion,
                 {ttables_encrypt_block, ttables_decrypt_block},
                 {ttables_encrypt_blocks, ttables_decrypt_blocks}},
};

enum { MAX_BYTES = 4096 * BLOCK_BYTES };

// The round keys that core wants for op.
static void schedule(const struct core *core, uint8_t size, enum op op, const uint8_t key[32], uint32_t w[60])
{
    core->key_expansion(size, key, w);
    if (op == DECRYPT && core->inv_key_expansion)
        core->inv_key_expansion(size, w);
}

// ---- the check

static void require(bool holds, const struct core *core, uint8_t size, enum op op, size_t len, const char *what)
{
    if (holds)
        return;
    fprintf(stderr, "bench: %s AES-%d %s of %zu bytes: %s\n", core_names[core - cores], key_bits(size), op_names[op], len,
            what);
    exit(1);
}

// Holds core to what it has to make of input, by the call for many blocks and by that for one.
static void check_core(const struct core *core, uint8_t size, enum op op, const uint8_t key[32],
                       const uint8_t *input, const uint8_t *expected, size_t len)
{
    static uint8_t data[MAX_BYTES + BLOCK_BYTES];
    uint32_t w[MAX_WORDS];
    schedule(core, size, op, key, w);

    // input and expected go on for one block after len, which is to be left as it is
    memcpy(data, input, len + BLOCK_BYTES);
    core->blocks[op](size, w, data, len);
    require(memcmp(data, expected, len + BLOCK_BYTES) == 0, core, size, op, len, "wrong by the call for many blocks");

    memcpy(data, input, len + BLOCK_BYTES);
    for (size_t at = 0; at + BLOCK_BYTES <= len; at += BLOCK_BYTES)
        core->block[op](size, w, data + at);
    require(memcmp(data, expected, len + BLOCK_BYTES) == 0, core, size, op, len, "wrong by the call for one block");
}

static void check_key_schedules(uint8_t size, const uint8_t key[32])
{
    uint32_t expected[MAX_WORDS], w[MAX_WORDS];
    size_t bytes = BLOCK_BYTES * (rounds_of(size) + 1);
    bytes_key_expansion(size, key, expected);
    for (int i = 0; i < CORES; i++) {
        cores[i].key_expansion(size, key, w);
        require(memcmp(w, expected, bytes) == 0, &cores[i], size, KEY_SCHEDULE, bytes, "not the byte-wise core's");
    }
}

// All cores on one key and the same data, of len bytes: encryption, and decryption both of what was
// encrypted and of the data as it stands.
static void check_agreement(uint8_t size, size_t len)
{
    static uint8_t plain[MAX_BYTES + BLOCK_BYTES], sealed[MAX_BYTES + BLOCK_BYTES], opened[MAX_BYTES + BLOCK_BYTES];
    uint8_t key[32];
    uint32_t w[MAX_WORDS];
    fill_random(key, sizeof key);
    fill_random(plain, len + BLOCK_BYTES);
    memcpy(sealed, plain, len + BLOCK_BYTES);
    memcpy(opened, plain, len + BLOCK_BYTES);
    bytes_key_expansion(size, key, w);
    bytes_encrypt_blocks(size, w, sealed, len);
    bytes_decrypt_blocks(size, w, opened, len);

    check_key_schedules(size, key);
    for (int i = 0; i < CORES; i++) {
        check_core(&cores[i], size, ENCRYPT, key, plain, sealed, len);
        check_core(&cores[i], size, DECRYPT, key, sealed, plain, len);
        check_core(&cores[i], size, DECRYPT, key, plain, opened, len);
    }
}

// FIPS 197, C.1 and C.3: the key is 00 01 02 ..., the plaintext 00 11 22 ... ff.
static void check_fips197(uint8_t size, const uint8_t ciphertext[16])
{
    uint8_t key[32], plain[2 * BLOCK_BYTES] = {0}, sealed[2 * BLOCK_BYTES] = {0};
    for (int i = 0; i < 32; i++)
        key[i] = (uint8_t)i;
    for (int i = 0; i < 16; i++)
        plain[i] = (uint8_t)(0x11 * i);
    memcpy(sealed, ciphertext, BLOCK_BYTES);
    for (int i = 0; i < CORES; i++) {
        check_core(&cores[i], size, ENCRYPT, key, plain, sealed, BLOCK_BYTES);
        check_core(&cores[i], size, DECRYPT, key, sealed, plain, BLOCK_BYTES);
    }
}

static void check_all(void)
{
    static const uint8_t c1[16] = {0x69, 0xc4, 0xe0, 0xd8, 0x6a, 0x7b, 0x04, 0x30,
                                   0xd8, 0xcd, 0xb7, 0x80, 0x70, 0xb4, 0xc5, 0x5a};
    static const uint8_t c3[16] = {0x8e, 0xa2, 0xb7, 0xca, 0x51, 0x67, 0x45, 0xbf,
                                   0xea, 0xfc, 0x49, 0x90, 0x4b, 0x49, 0x60, 0x89};
    // beyond 9 blocks: a core may take another way for many
    static const size_t more[] = {16, 31, 64, 100, 255, 1000, 4096};
    check_fips197(0, c1);
    check_fips197(1, c3);
    for (uint8_t size = 0; size < 2; size++) {
        for (int key = 0; key < 50; key++)
            for (size_t blocks = 1; blocks <= 9; blocks++)
                check_agreement(size, blocks * BLOCK_BYTES);
        for (size_t i = 0; i < sizeof more / sizeof *more; i++)
            check_agreement(size, more[i] * BLOCK_BYTES);
        for (size_t len = 0; len < 3 * BLOCK_BYTES; len++) // a part of a block stays as it is
            check_agreement(size, len);
    }
    puts("All three cores agree on FIPS 197 C.1 and C.3 and on random keys and blocks.\n");
}

// ---- the measurement

// What is called, as often as reps says, in place and so each time on the result of the last. No core
// sees the loop, since each is compiled apart.
static void repeat(const struct core *core, const struct row *row, const uint8_t key[32], uint32_t w[60], size_t reps)
{
    static _Alignas(64) uint8_t data[MAX_BYTES];
    if (row->op == KEY_SCHEDULE) {
        for (size_t i = 0; i < reps; i++)
            core->key_expansion(row->size, key, w);
    } else if (row->blocks == 1) {
        for (size_t i = 0; i < reps; i++)
            core->block[row->op](row->size, w, data);
    } else {
        for (size_t i = 0; i < reps; i++)
            core->blocks[row->op](row->size, w, data, row->blocks * BLOCK_BYTES);
    }
}

static double slice_ns(int core, const struct row *row, size_t reps)
{
    static _Alignas(64) uint32_t w[MAX_WORDS];
    static const uint8_t key[32] = {0x60, 0x3d, 0xeb, 0x10, 0x15, 0xca, 0x71, 0xbe};
    schedule(&cores[core], row->size, row->op, key, w);
    double start = now_ns();
    repeat(&cores[core], row, key, w, reps);
    return now_ns() - start;
}

static void print_label(const struct row *row)
{
    printf("AES-%d %-12s ", key_bits(row->size), op_names[row->op]);
    if (row->blocks)
        printf("%4zu block%c", row->blocks, row->blocks == 1 ? ' ' : 's');
    else
        printf("%11s", "");
}

// ---- the bars

static const struct bar bars[] = {
    {"1 block", 1, BYTES, 0.70},
    {"8 blocks", 8, TTABLES, 2.20},
    {"4096 blocks", 4096, TTABLES, 1.50},
    {"key schedule", 0, BYTES, 0.60},
};

// One block deciphered alone misses the first, as its inverse S-box is computed for it (docs/DECISIONS.md,
// "Speed"). The key schedule's bar is against figure 11 as FIPS 197 prints it. There is a faster byte-wise form,
// and the proved one is not 0.6 of that: so both are shown.
static double key_expansion_ns(void (*expand)(uint8_t, const uint8_t *, uint32_t *), uint8_t size)
{
    uint8_t key[32];
    uint32_t w[60], first[60];
    fill_random(key, sizeof key);
    bytes_key_expansion(size, key, first);
    expand(size, key, w);
    require(memcmp(w, first, 16 * (rounds_of(size) + 1)) == 0, &cores[BYTES], size, KEY_SCHEDULE, sizeof key, "forms differ");
    double best = INFINITY;
    for (int run = 0; run < 15; run++) {
        double start = now_ns();
        for (int i = 0; i < 30000; i++) {
            expand(size, key, w);
            key[0] = (uint8_t)w[4];
        }
        best = fmin(best, (now_ns() - start) / 30000);
    }
    return best;
}

static void print_grouped(void)
{
    for (uint8_t size = 0; size < 2; size++) {
        double ours = key_expansion_ns(aes_key_expansion, size), grouped = key_expansion_ns(bytes_key_expansion_grouped, size);
        printf("AES-%d key schedule against the byte-wise one in groups, without figure 11's mod: %.1f to %.1f ns, %.2f\n",
               key_bits(size), ours, grouped, ours / grouped);
    }
}

int main(void)
{
    static const size_t blocks[] = {1, 8, 4096};
    struct row rows[14];
    size_t count = 0;
    for (uint8_t size = 0; size < 2; size++)
        for (enum op op = ENCRYPT; op <= DECRYPT; op++)
            for (int b = 0; b < 3; b++)
                rows[count++] = (struct row){.size = size, .op = op, .blocks = blocks[b]};
    for (uint8_t size = 0; size < 2; size++)
        rows[count++] = (struct row){.size = size, .op = KEY_SCHEDULE};

    sbox_init();
    ttables_init();
    check_all();
    measure_all(rows, count, slice_ns);
    print_head("ns per block or schedule");
    for (size_t i = 0; i < count; i++) {
        print_label(&rows[i]);
        print_figures(&rows[i]);
    }
    puts("");
    for (size_t i = 0; i < sizeof bars / sizeof *bars; i++) {
        const struct row *worst = print_bar(&bars[i], rows, count, "pass", "MISSED");
        printf("AES-%d %s\n", key_bits(worst->size), op_names[worst->op]);
    }
    print_grouped();
    return 0;
}
