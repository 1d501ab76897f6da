// AES with T-tables: one lookup per byte does SubBytes and MixColumns at once. The state is four
// words, one for each column, the first byte lowest.
#include "aes_baseline.h"

// enc_table[r][x]: what byte x in row r adds to its column in SubBytes and MixColumns; dec_table for
// InvSubBytes and InvMixColumns.
static uint32_t enc_table[4][256], dec_table[4][256];

static inline uint32_t word(uint8_t a, uint8_t b, uint8_t c, uint8_t d)
{
    return a | (uint32_t)b << 8 | (uint32_t)c << 16 | (uint32_t)d << 24;
}

static inline uint32_t load_word(const uint8_t b[4]) { return word(b[0], b[1], b[2], b[3]); }

static inline void store_word(uint8_t b[4], uint32_t x)
{
    b[0] = (uint8_t)x;
    b[1] = (uint8_t)(x >> 8);
    b[2] = (uint8_t)(x >> 16);
    b[3] = (uint8_t)(x >> 24);
}

static inline uint8_t byte(uint32_t x, unsigned r) { return (uint8_t)(x >> 8 * r); }

static inline uint32_t rotl(uint32_t x, unsigned k) { return x << k | x >> (-k & 31); }

void ttables_init(void)
{
    for (unsigned x = 0; x < 256; x++) {
        uint8_t s = sbox[x], i = inv_sbox[x];
        uint32_t enc = word(gf_mul(s, 2), s, s, gf_mul(s, 3));
        uint32_t dec = word(gf_mul(i, 14), gf_mul(i, 9), gf_mul(i, 13), gf_mul(i, 11));
        for (unsigned r = 0; r < 4; r++) {
            enc_table[r][x] = rotl(enc, 8 * r);
            dec_table[r][x] = rotl(dec, 8 * r);
        }
    }
}

// One column of a round. ShiftRows is in the choice of the columns: a has row 0, ... d has row 3.
static inline uint32_t enc_column(uint32_t a, uint32_t b, uint32_t c, uint32_t d)
{
    return enc_table[0][byte(a, 0)] ^ enc_table[1][byte(b, 1)] ^ enc_table[2][byte(c, 2)] ^
           enc_table[3][byte(d, 3)];
}

static inline uint32_t dec_column(uint32_t a, uint32_t b, uint32_t c, uint32_t d)
{
    return dec_table[0][byte(a, 0)] ^ dec_table[1][byte(b, 1)] ^ dec_table[2][byte(c, 2)] ^
           dec_table[3][byte(d, 3)];
}

// One column of the last round, which has no MixColumns.
static inline uint32_t sub_column(const uint8_t box[256], uint32_t a, uint32_t b, uint32_t c, uint32_t d)
{
    return word(box[byte(a, 0)], box[byte(b, 1)], box[byte(c, 2)], box[byte(d, 3)]);
}

struct state {
    uint32_t a, b, c, d;
};

static inline struct state load_state(const uint8_t p[16])
{
    return (struct state){load_word(p), load_word(p + 4), load_word(p + 8), load_word(p + 12)};
}

// The cipher of s, XORed with x. Always inline, and each word stored as soon as it is there: with a call, or with all
// four stored at the end, counter mode took 7 to 18 percent longer at gcc -O2.
__attribute__((always_inline)) static inline void encrypt_onto(unsigned rounds, const uint32_t *w, struct state s,
                                                               struct state x, uint8_t out[16])
{
    uint32_t a = s.a ^ w[0], b = s.b ^ w[1], c = s.c ^ w[2], d = s.d ^ w[3];
    w += 4;
    for (unsigned r = 1; r < rounds; r++, w += 4) {
        uint32_t e = enc_column(a, b, c, d) ^ w[0], f = enc_column(b, c, d, a) ^ w[1];
        uint32_t g = enc_column(c, d, a, b) ^ w[2], h = enc_column(d, a, b, c) ^ w[3];
        a = e, b = f, c = g, d = h;
    }
    store_word(out, x.a ^ sub_column(sbox, a, b, c, d) ^ w[0]);
    store_word(out + 4, x.b ^ sub_column(sbox, b, c, d, a) ^ w[1]);
    store_word(out + 8, x.c ^ sub_column(sbox, c, d, a, b) ^ w[2]);
    store_word(out + 12, x.d ^ sub_column(sbox, d, a, b, c) ^ w[3]);
}

static inline void encrypt(unsigned rounds, const uint32_t *w, uint8_t block[16])
{
    encrypt_onto(rounds, w, load_state(block), (struct state){0, 0, 0, 0}, block);
}

static inline void decrypt(unsigned rounds, const uint32_t *w, uint8_t block[16])
{
    w += 4 * rounds;
    uint32_t a = load_word(block) ^ w[0], b = load_word(block + 4) ^ w[1];
    uint32_t c = load_word(block + 8) ^ w[2], d = load_word(block + 12) ^ w[3];
    w -= 4;
    for (unsigned r = 1; r < rounds; r++, w -= 4) {
        uint32_t e = dec_column(a, d, c, b) ^ w[0], f = dec_column(b, a, d, c) ^ w[1];
        uint32_t g = dec_column(c, b, a, d) ^ w[2], h = dec_column(d, c, b, a) ^ w[3];
        a = e, b = f, c = g, d = h;
    }
    store_word(block, sub_column(inv_sbox, a, d, c, b) ^ w[0]);
    store_word(block + 4, sub_column(inv_sbox, b, a, d, c) ^ w[1]);
    store_word(block + 8, sub_column(inv_sbox, c, b, a, d) ^ w[2]);
    store_word(block + 12, sub_column(inv_sbox, d, c, b, a) ^ w[3]);
}

void ttables_encrypt_block(uint8_t size, const uint32_t w[60], uint8_t block[16])
{
    encrypt(rounds_of(size), w, block);
}

void ttables_decrypt_block(uint8_t size, const uint32_t dw[60], uint8_t block[16])
{
    decrypt(rounds_of(size), dw, block);
}

void ttables_encrypt_blocks(uint8_t size, const uint32_t w[60], uint8_t *data, size_t len)
{
    for (; len >= 16; data += 16, len -= 16)
        encrypt(rounds_of(size), w, data);
}

void ttables_decrypt_blocks(uint8_t size, const uint32_t dw[60], uint8_t *data, size_t len)
{
    for (; len >= 16; data += 16, len -= 16)
        decrypt(rounds_of(size), dw, data);
}

// ---- counter mode: the counter stays in registers, and the data is XORed by words

static inline uint32_t reversed(uint32_t x)
{
    return x << 24 | (x << 8 & 0xff0000) | (x >> 8 & 0xff00) | x >> 24;
}

static inline uint64_t load_big(const uint8_t p[8])
{
    return (uint64_t)reversed(load_word(p)) << 32 | reversed(load_word(p + 4));
}

static inline struct state counter_state(uint64_t high, uint64_t low)
{
    return (struct state){reversed((uint32_t)(high >> 32)), reversed((uint32_t)high), reversed((uint32_t)(low >> 32)),
                          reversed((uint32_t)low)};
}

void ttables_ctr(uint8_t size, const uint32_t w[60], const uint8_t counter[16], uint8_t *data, size_t len)
{
    uint64_t high = load_big(counter), low = load_big(counter + 8);
    uint8_t last[16] = {0};
    for (; len >= 16; data += 16, len -= 16) {
        encrypt_onto(rounds_of(size), w, counter_state(high, low), load_state(data), data);
        high += ++low == 0;
    }
    if (len == 0)
        return;
    encrypt_onto(rounds_of(size), w, counter_state(high, low), load_state(last), last);
    for (size_t i = 0; i < len; i++)
        data[i] ^= last[i];
}

// ---- key schedules

static inline uint32_t sub_word(uint32_t x) { return sub_column(sbox, x, x, x, x); }

// RotWord moves the first byte, the lowest, to the end.
static inline uint32_t rot_word(uint32_t x) { return rotl(x, 24); }

// The words come in groups of as many as the key has. The first of a group goes through RotWord,
// SubWord and Rcon, the fifth, which AES-128 does not have, through SubWord.
void ttables_key_expansion(uint8_t size, const uint8_t key[32], uint32_t w[60])
{
    unsigned group = key_words_of(size), end = 4 * (rounds_of(size) + 1);
    uint8_t rcon = 1;
    for (unsigned i = 0; i < group; i++)
        w[i] = load_word(key + 4 * i);
    uint32_t t = w[group - 1];
    for (unsigned i = group; i < end; i += group, rcon = xtime(rcon)) {
        t = sub_word(rot_word(t)) ^ rcon;
        for (unsigned j = 0; j < group && i + j < end; j++) {
            if (j == 4)
                t = sub_word(t);
            w[i + j] = t ^= w[i + j - group];
        }
    }
}

// dec_table does InvSubBytes too, which the S-box undoes here.
static inline uint32_t inv_mix_column(uint32_t x)
{
    uint32_t s = sub_word(x);
    return dec_column(s, s, s, s);
}

void ttables_inv_key_expansion(uint8_t size, uint32_t w[60])
{
    for (unsigned i = 4; i < 4 * rounds_of(size); i++)
        w[i] = inv_mix_column(w[i]);
}
