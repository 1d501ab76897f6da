// AES byte by byte: an S-box lookup for each byte, MixColumns by xtime. The state is 16 bytes as
// members of structures, which the compiler keeps apart. Where they are an array, gcc 12 at -O2 packs
// them into vectors and unpacks them again in every round, and takes up to twice the time.
#include "aes_baseline.h"

#include <string.h>

uint8_t sbox[256], inv_sbox[256];

static uint8_t rotl8(uint8_t a, unsigned k) { return (uint8_t)(a << k | a >> (8 - k)); }

// The affine map of FIPS 197, 5.1.1.
static uint8_t affine(uint8_t a)
{
    return a ^ rotl8(a, 1) ^ rotl8(a, 2) ^ rotl8(a, 3) ^ rotl8(a, 4) ^ 0x63;
}

// 3 generates all elements but 0, and f6 is its inverse: p runs over the elements, q over their inverses.
void sbox_init(void)
{
    uint8_t p = 1, q = 1;
    sbox[0] = affine(0);
    do {
        sbox[p] = affine(q);
        p = gf_mul(p, 3);
        q = gf_mul(q, 0xf6);
    } while (p != 1);
    for (unsigned i = 0; i < 256; i++)
        inv_sbox[sbox[i]] = (uint8_t)i;
}

// Rows 0 to 3.
struct column {
    uint8_t a, b, c, d;
};

// Columns 0 to 3.
struct state {
    struct column w, x, y, z;
};

static inline struct column load_column(const uint8_t p[4])
{
    return (struct column){p[0], p[1], p[2], p[3]};
}

static inline struct state load_state(const uint8_t p[16])
{
    return (struct state){load_column(p), load_column(p + 4), load_column(p + 8), load_column(p + 12)};
}

static inline void store_column(uint8_t p[4], struct column s)
{
    p[0] = s.a;
    p[1] = s.b;
    p[2] = s.c;
    p[3] = s.d;
}

static inline void store_state(uint8_t p[16], struct state s)
{
    store_column(p, s.w);
    store_column(p + 4, s.x);
    store_column(p + 8, s.y);
    store_column(p + 12, s.z);
}

static inline struct column sub_column(const uint8_t box[256], struct column s)
{
    return (struct column){box[s.a], box[s.b], box[s.c], box[s.d]};
}

static inline struct state sub_bytes(const uint8_t box[256], struct state s)
{
    return (struct state){sub_column(box, s.w), sub_column(box, s.x), sub_column(box, s.y), sub_column(box, s.z)};
}

// The column of row 0 of w, row 1 of x, row 2 of y and row 3 of z.
static inline struct column diagonal(struct column w, struct column x, struct column y, struct column z)
{
    return (struct column){w.a, x.b, y.c, z.d};
}

static inline struct state shift_rows(struct state s)
{
    return (struct state){diagonal(s.w, s.x, s.y, s.z), diagonal(s.x, s.y, s.z, s.w),
                          diagonal(s.y, s.z, s.w, s.x), diagonal(s.z, s.w, s.x, s.y)};
}

static inline struct state inv_shift_rows(struct state s)
{
    return (struct state){diagonal(s.w, s.z, s.y, s.x), diagonal(s.x, s.w, s.z, s.y),
                          diagonal(s.y, s.x, s.w, s.z), diagonal(s.z, s.y, s.x, s.w)};
}

// 2a + 3b + c + d = a + (a + b + c + d) + 2(a + b), and so on around the column.
static inline struct column mix_column(struct column s)
{
    uint8_t sum = s.a ^ s.b ^ s.c ^ s.d;
    return (struct column){s.a ^ sum ^ xtime(s.a ^ s.b), s.b ^ sum ^ xtime(s.b ^ s.c),
                           s.c ^ sum ^ xtime(s.c ^ s.d), s.d ^ sum ^ xtime(s.d ^ s.a)};
}

// InvMixColumns is MixColumns after a product with (5, 0, 4, 0).
static inline struct column inv_mix_column(struct column s)
{
    uint8_t ac = xtime(xtime(s.a ^ s.c)), bd = xtime(xtime(s.b ^ s.d));
    return mix_column((struct column){s.a ^ ac, s.b ^ bd, s.c ^ ac, s.d ^ bd});
}

static inline struct state mix_columns(struct state s)
{
    return (struct state){mix_column(s.w), mix_column(s.x), mix_column(s.y), mix_column(s.z)};
}

static inline struct state inv_mix_columns(struct state s)
{
    return (struct state){inv_mix_column(s.w), inv_mix_column(s.x), inv_mix_column(s.y), inv_mix_column(s.z)};
}

static inline struct column add_column(struct column s, const uint8_t k[4])
{
    return (struct column){s.a ^ k[0], s.b ^ k[1], s.c ^ k[2], s.d ^ k[3]};
}

static inline struct state add_round_key(struct state s, const uint8_t k[16])
{
    return (struct state){add_column(s.w, k), add_column(s.x, k + 4), add_column(s.y, k + 8), add_column(s.z, k + 12)};
}

static inline void encrypt(unsigned rounds, const uint8_t *w, uint8_t block[16])
{
    struct state s = add_round_key(load_state(block), w);
    for (unsigned r = 1; r < rounds; r++)
        s = add_round_key(mix_columns(shift_rows(sub_bytes(sbox, s))), w + 16 * r);
    store_state(block, add_round_key(shift_rows(sub_bytes(sbox, s)), w + 16 * rounds));
}

static inline void decrypt(unsigned rounds, const uint8_t *w, uint8_t block[16])
{
    struct state s = add_round_key(load_state(block), w + 16 * rounds);
    for (unsigned r = rounds - 1; r > 0; r--)
        s = inv_mix_columns(add_round_key(sub_bytes(inv_sbox, inv_shift_rows(s)), w + 16 * r));
    store_state(block, add_round_key(sub_bytes(inv_sbox, inv_shift_rows(s)), w));
}

void bytes_encrypt_block(uint8_t size, const uint32_t w[60], uint8_t block[16])
{
    encrypt(rounds_of(size), (const uint8_t *)w, block);
}

void bytes_decrypt_block(uint8_t size, const uint32_t w[60], uint8_t block[16])
{
    decrypt(rounds_of(size), (const uint8_t *)w, block);
}

void bytes_encrypt_blocks(uint8_t size, const uint32_t w[60], uint8_t *data, size_t len)
{
    for (; len >= 16; data += 16, len -= 16)
        encrypt(rounds_of(size), (const uint8_t *)w, data);
}

void bytes_decrypt_blocks(uint8_t size, const uint32_t w[60], uint8_t *data, size_t len)
{
    for (; len >= 16; data += 16, len -= 16)
        decrypt(rounds_of(size), (const uint8_t *)w, data);
}

static void count_up(uint8_t counter[16])
{
    for (int i = 15; i >= 0 && ++counter[i] == 0; i--)
        ;
}

void bytes_ctr(uint8_t size, const uint32_t w[60], const uint8_t counter[16], uint8_t *data, size_t len)
{
    uint8_t at[16], stream[16];
    memcpy(at, counter, 16);
    for (size_t i = 0; i < len; i++) {
        if (i % 16 == 0) {
            memcpy(stream, at, 16);
            encrypt(rounds_of(size), (const uint8_t *)w, stream);
            count_up(at);
        }
        data[i] ^= stream[i % 16];
    }
}

static inline struct column rot_word(struct column t) { return (struct column){t.b, t.c, t.d, t.a}; }

// FIPS 197, figure 11, word for word, with its `mod`.
void bytes_key_expansion(uint8_t size, const uint8_t key[32], uint32_t words[60])
{
    unsigned nk = key_words_of(size), end = 4 * (rounds_of(size) + 1);
    uint8_t *w = (uint8_t *)words, rcon = 1;
    memcpy(w, key, 4 * nk);
    for (unsigned i = nk; i < end; i++) {
        struct column t = load_column(w + 4 * (i - 1));
        if (i % nk == 0) {
            t = sub_column(sbox, rot_word(t));
            t.a ^= rcon;
            rcon = xtime(rcon);
        } else if (nk > 6 && i % nk == 4) {
            t = sub_column(sbox, t);
        }
        store_column(w + 4 * i, add_column(t, w + 4 * (i - nk)));
    }
}

// The same in groups of nk words, without the division: nearly twice as fast with gcc 12.
void bytes_key_expansion_grouped(uint8_t size, const uint8_t key[32], uint32_t words[60])
{
    unsigned group = 4 * key_words_of(size), end = 16 * (rounds_of(size) + 1);
    uint8_t *w = (uint8_t *)words, rcon = 1;
    memcpy(w, key, group);
    struct column t = load_column(w + group - 4);
    for (unsigned i = group; i < end; i += group, rcon = xtime(rcon)) {
        t = sub_column(sbox, rot_word(t));
        t.a ^= rcon;
        for (unsigned j = 0; j < group && i + j < end; j += 4) {
            if (j == 16)
                t = sub_column(sbox, t);
            t = add_column(t, w + i + j - group);
            store_column(w + i + j, t);
        }
    }
}
