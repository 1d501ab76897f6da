#include "aes.h"

#include <string.h>

#include "faults.h"

static uint8_t s_box[256], inverse_s_box[256];

/* section 4.2.1 */
static uint8_t xtime(uint8_t a)
{
    return (uint8_t)(a << 1 ^ (a & 0x80 ? 0x1b : 0));
}

/* section 4.2 */
static uint8_t multiply(uint8_t a, uint8_t b)
{
    uint8_t product = 0;
    for (; b; b >>= 1, a = xtime(a))
        if (b & 1)
            product ^= a;
    return product;
}

static uint8_t field_inverse(uint8_t a)
{
    for (unsigned b = 0; b < 256; b++)
        if (multiply(a, (uint8_t)b) == 1)
            return (uint8_t)b;
    return 0;
}

/* section 5.1.1, equation (5.1) */
static uint8_t affine(uint8_t b)
{
    uint8_t result = 0;
    for (unsigned i = 0; i < 8; i++) {
        unsigned bit = b >> i ^ b >> (i + 4) % 8 ^ b >> (i + 5) % 8 ^ b >> (i + 6) % 8 ^ b >> (i + 7) % 8 ^ 0x63 >> i;
        result |= (uint8_t)((bit & 1) << i);
    }
    return result;
}

void aes_start(void)
{
    for (unsigned a = 0; a < 256; a++) {
        s_box[a] = affine(field_inverse((uint8_t)a));
        inverse_s_box[s_box[a]] = (uint8_t)a;
    }
}

static void sub_word(uint8_t word[4])
{
    for (int i = 0; i < 4; i++)
        word[i] = s_box[word[i]];
}

static void rotate_word(uint8_t word[4])
{
    uint8_t first = word[0];
    memmove(word, word + 1, 3);
    word[3] = first;
}

/* section 5.2 */
unsigned aes_expand_key(const uint8_t *key, size_t key_length, uint8_t w[AES_WORDS_MOST][4])
{
    unsigned nk = (unsigned)key_length / 4, rounds = nk + 6;
    uint8_t rcon = 1;
    memcpy(w, key, key_length);
    for (unsigned i = nk; i < 4 * (rounds + 1); i++) {
        uint8_t temp[4];
        memcpy(temp, w[i - 1], 4);
        if (i % nk == 0) {
            rotate_word(temp);
            sub_word(temp);
            temp[0] ^= rcon;
            rcon = xtime(rcon);
        } else if (nk > 6 && i % nk == 4 && !FAULT(NO_MIDDLE_SUBWORD)) {
            sub_word(temp);
        }
        for (int b = 0; b < 4; b++)
            w[i][b] = w[i - nk][b] ^ temp[b];
    }
    return rounds;
}

struct schedule {
    uint8_t key[32];
    size_t key_length;
    unsigned rounds;
    uint8_t w[AES_WORDS_MOST][4];
};

/* The last key's is kept: counter mode asks for it block by block. */
static const struct schedule *schedule_of(const uint8_t *key, size_t key_length)
{
    static struct schedule last;
    if (last.key_length == key_length && memcmp(last.key, key, key_length) == 0)
        return &last;
    memcpy(last.key, key, key_length);
    last.key_length = key_length;
    last.rounds = aes_expand_key(key, key_length, last.w);
    return &last;
}

static void add_round_key(uint8_t state[16], const struct schedule *schedule, unsigned round)
{
    for (unsigned i = 0; i < 16; i++)
        state[i] ^= schedule->w[4 * round + i / 4][i % 4];
}

static void substitute(uint8_t state[16], const uint8_t box[256])
{
    for (int i = 0; i < 16; i++)
        state[i] = box[state[i]];
}

/* sections 5.1.2 and 5.3.1: byte r + 4c is row r of column c; row r moves r places, to the left or back */
static void shift_rows(uint8_t state[16], int back)
{
    uint8_t old[16];
    memcpy(old, state, 16);
    for (int r = 0; r < 4; r++)
        for (int c = 0; c < 4; c++)
            state[r + 4 * c] = old[r + 4 * ((c + (back ? 4 - r : r)) % 4)];
}

/* sections 5.1.3 and 5.3.3: each column times the polynomial whose coefficients are a[0] (lowest) to a[3] */
static void mix_columns(uint8_t state[16], const uint8_t a[4])
{
    for (int c = 0; c < 4; c++) {
        uint8_t column[4];
        memcpy(column, state + 4 * c, 4);
        for (int r = 0; r < 4; r++) {
            uint8_t sum = 0;
            for (int i = 0; i < 4; i++)
                sum ^= multiply(column[i], a[(r - i + 4) % 4]);
            state[r + 4 * c] = sum;
        }
    }
}

void aes_encrypt(const uint8_t *key, size_t key_length, const uint8_t in[16], uint8_t out[16])
{
    static const uint8_t a[4] = {2, 1, 1, 3};
    const struct schedule *schedule = schedule_of(key, key_length);
    uint8_t state[16];
    memcpy(state, in, 16);
    add_round_key(state, schedule, 0);
    for (unsigned round = 1; round <= schedule->rounds; round++) {
        substitute(state, s_box);
        shift_rows(state, 0);
        if (round < schedule->rounds)
            mix_columns(state, a);
        add_round_key(state, schedule, round);
    }
    memcpy(out, state, 16);
}

void aes_decrypt(const uint8_t *key, size_t key_length, const uint8_t in[16], uint8_t out[16])
{
    static const uint8_t inverse_a[4] = {0x0e, 0x09, 0x0d, 0x0b};
    const struct schedule *schedule = schedule_of(key, key_length);
    uint8_t state[16];
    memcpy(state, in, 16);
    add_round_key(state, schedule, schedule->rounds);
    for (unsigned round = schedule->rounds; round-- > 0;) {
        shift_rows(state, 1);
        substitute(state, inverse_s_box);
        add_round_key(state, schedule, round);
        if (round > 0)
            mix_columns(state, inverse_a);
    }
    memcpy(out, state, 16);
}
