// Key wrapping on T-table AES, with a POLYVAL by windows of four bits. Of the forms that were timed at
// gcc -O2 this was the fastest for three and four blocks, which is what wrapping takes. A window of eight
// bits, whose table of 256 takes long to make, was an eighth faster for 256 blocks.
#include "keywrap_siv.h"

// x^128 = x^127 + x^126 + x^121 + 1
static inline struct element times_x(struct element a)
{
    uint64_t over = -(a.hi >> 63);
    return (struct element){a.lo << 1 ^ (over & 1), (a.hi << 1 | a.lo >> 63) ^ (over & 0xc200000000000000)};
}

// The products of an element with the sixteen polynomials below x^4. Their halves lie apart: with both
// in one entry POLYVAL took a fifth longer, since x86 scales an index by 8 and not by 16.
struct window {
    uint64_t lo[16], hi[16];
};

static inline void put(struct window *t, unsigned i, struct element a)
{
    t->lo[i] = a.lo;
    t->hi[i] = a.hi;
}

// The four products from i on: a, and a with h, h2 and both added.
static inline void put_four(struct window *t, unsigned i, struct element a, struct element h, struct element h2)
{
    put(t, i, a);
    put(t, i + 1, add(a, h));
    put(t, i + 2, add(a, h2));
    put(t, i + 3, add(add(a, h2), h));
}

// Gives h x^4, of which the next window is made. Written out: with a loop POLYVAL of three blocks took a
// tenth longer.
static inline struct element make_window(struct window *t, struct element h)
{
    struct element h2 = times_x(h), h4 = times_x(h2), h8 = times_x(h4);
    put_four(t, 0, (struct element){0, 0}, h, h2);
    put_four(t, 4, h4, h, h2);
    put_four(t, 8, h8, h, h2);
    put_four(t, 12, add(h8, h4), h, h2);
    return times_x(h8);
}

// c0 + c1 x^64 + c2 x^128 + c3 x^192, over x^128, by x^-64 = x^64 + x^63 + x^62 + x^57 twice.
static inline struct element reduce(uint64_t c0, uint64_t c1, uint64_t c2, uint64_t c3)
{
    c1 ^= c0 << 63 ^ c0 << 62 ^ c0 << 57;
    c2 ^= c0 ^ c0 >> 1 ^ c0 >> 2 ^ c0 >> 7;
    c2 ^= c1 << 63 ^ c1 << 62 ^ c1 << 57;
    c3 ^= c1 ^ c1 >> 1 ^ c1 >> 2 ^ c1 >> 7;
    return (struct element){c2, c3};
}

// a h x^-128. Horner's rule in x^8 over both halves of a at once: t[0] has the products of h, t[1] those
// of h x^4.
static inline struct element dot(struct element a, const struct window t[2])
{
    uint64_t c0 = 0, c1 = 0, c2 = 0, c3 = 0;
    for (unsigned i = 0; i < 8; i++, a.lo <<= 8, a.hi <<= 8) {
        uint64_t m = a.lo >> 60, n = a.lo >> 56 & 15, p = a.hi >> 60, q = a.hi >> 56 & 15;
        c3 = c3 << 8 | c2 >> 56;
        c2 = (c2 << 8 | c1 >> 56) ^ (t[1].hi[p] ^ t[0].hi[q]);
        c1 = (c1 << 8 | c0 >> 56) ^ (t[1].lo[p] ^ t[0].lo[q] ^ t[1].hi[m] ^ t[0].hi[n]);
        c0 = c0 << 8 ^ (t[1].lo[m] ^ t[0].lo[n]);
    }
    return reduce(c0, c1, c2, c3);
}

void ttables_polyval_blocks(const uint8_t h[16], const uint8_t *data, size_t len, uint8_t result[16])
{
    struct window t[2];
    struct element s = {0, 0}, next = load_element(h);
    for (unsigned i = 0; i < 2; i++)
        next = make_window(&t[i], next);
    for (; len >= 16; data += 16, len -= 16)
        s = dot(add(s, load_element(data)), t);
    store_element(result, s);
}

static const struct parts parts = {ttables_key_expansion, ttables_encrypt_blocks, ttables_polyval_blocks};

void ttables_wrap(uint8_t size, const uint8_t integrity[16], const uint8_t encryption[32], const uint8_t aad[16],
                  const uint8_t key[32], uint8_t handle[64])
{
    siv_key_wrap(&parts, size, integrity, encryption, aad, key, handle);
}

uint8_t ttables_unwrap(uint8_t size, const uint8_t integrity[16], const uint8_t encryption[32],
                       const uint8_t handle[64], uint8_t key[32])
{
    return siv_key_unwrap(&parts, size, integrity, encryption, handle, key);
}
