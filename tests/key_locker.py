#!/usr/bin/env python3
"""Key Locker's wrapping, a second implementation beside the proved one, to derive and to check test vectors.

  key_locker.py  exit with 1 at the first line of the vector files that comes out differently
  key_locker.py INTEGRITY ENCRYPTION AAD HIGH TAG  print the 32-byte key that ends in HIGH and whose handle has TAG

It is written from FIPS 197, RFC 8452, NIST SP 800-38A and the scope (see docs/DECISIONS.md) and from nothing under crates/, for
reading and not for speed.
"""

import sys
from pathlib import Path

ROOT = Path(__file__).resolve().parent.parent
VECTORS = ["tests/vectors/fips197.txt", "tests/vectors/rfc8452.txt", "tests/vectors/handles.txt", "tests/vectors/sp800-38a-ctr.txt"]


def xor(a, b):
    assert len(a) == len(b)
    return bytes(x ^ y for x, y in zip(a, b))


# FIPS 197. The state is its 16 bytes, column after column (section 3.4).


def multiply(a, b):
    """Section 4.2: the product modulo x^8 + x^4 + x^3 + x + 1."""
    result = 0
    for i in range(8):
        if b >> i & 1:
            result ^= a
        a = a << 1 ^ (0x11B if a & 0x80 else 0)
    return result


def sbox_entry(a):
    """Section 5.1.1: the inverse, 0 for 0, then equation (5.1)."""
    b = next((b for b in range(256) if multiply(a, b) == 1), 0)
    result = 0x63
    for n in [0, 4, 5, 6, 7]:
        result ^= (b >> n | b << 8 - n) & 0xFF
    return result


SBOX = bytes(map(sbox_entry, range(256)))
INV_SBOX = bytes(map(SBOX.index, range(256)))


def key_expansion(key):
    """Section 5.2: the round keys, 16 bytes each."""
    nk = len(key) // 4
    w = [key[i : i + 4] for i in range(0, len(key), 4)]
    rcon = 1
    for i in range(nk, 4 * (nk + 7)):
        temp = w[i - 1]
        if i % nk == 0:
            temp = xor((temp[1:] + temp[:1]).translate(SBOX), bytes([rcon, 0, 0, 0]))
            rcon = multiply(rcon, 2)
        elif nk > 6 and i % nk == 4:
            temp = temp.translate(SBOX)
        w.append(xor(w[i - nk], temp))
    return [b"".join(w[i : i + 4]) for i in range(0, len(w), 4)]


def shift_rows(state, turn=1):
    return bytes(state[(i + 4 * turn * (i % 4)) % 16] for i in range(16))


def mix_columns(state, row=(2, 3, 1, 1)):
    """Each column times the matrix whose first row is given, and each further row the one above turned right."""
    result = bytearray(16)
    for i in range(16):
        for j in range(4):
            result[i] ^= multiply(row[(j - i) % 4], state[i // 4 * 4 + j])
    return bytes(result)


def cipher(key, block):
    """Section 5.1."""
    first, *others, last = key_expansion(key)
    state = xor(block, first)
    for round_key in others:
        state = xor(mix_columns(shift_rows(state.translate(SBOX))), round_key)
    return xor(shift_rows(state.translate(SBOX)), last)


def inv_cipher(key, block):
    """Section 5.3."""
    last, *others, first = reversed(key_expansion(key))
    state = xor(block, last)
    for round_key in others:
        state = xor(shift_rows(state, -1).translate(INV_SBOX), round_key)
        state = mix_columns(state, (0x0E, 0x0B, 0x0D, 0x09))
    return xor(shift_rows(state, -1).translate(INV_SBOX), first)


# SP 800-38A, section 6.5, with the standard incrementing function of appendix B.1 over all 128 bits.


def ctr(key, counter, text):
    """A plaintext becomes its ciphertext, and a ciphertext its plaintext."""
    first, result = int.from_bytes(counter, "big"), b""
    for i in range(0, len(text), 16):
        block = text[i : i + 16]
        keystream = cipher(key, ((first + i // 16) % 2**128).to_bytes(16, "big"))
        result += xor(block, keystream[: len(block)])
    return result


# RFC 8452, section 3. A field element is its 16 bytes; the lowest bit of the first is the coefficient of x^0.


def element(*powers):
    return sum(1 << n for n in powers).to_bytes(16, "little")


ONE = element(0)
X_TO_MINUS_128 = element(127, 124, 121, 114, 0)


def product(a, b):
    """The product of the polynomials, then its remainder modulo x^128 + x^127 + x^126 + x^121 + 1."""
    a, b = int.from_bytes(a, "little"), int.from_bytes(b, "little")
    modulus = 1 << 128 | 1 << 127 | 1 << 126 | 1 << 121 | 1
    result = 0
    for i in range(128):
        if b >> i & 1:
            result ^= a << i
    for i in reversed(range(128, 255)):
        if result >> i & 1:
            result ^= modulus << i - 128
    return result.to_bytes(16, "little")


def dot(a, b):
    return product(product(a, b), X_TO_MINUS_128)


def inverse(a):
    """The power 2^128 - 2, that is 2 + 4 + ... + 2^127."""
    result = ONE
    for _ in range(127):
        a = product(a, a)
        result = product(result, a)
    return result


def polyval(h, blocks):
    s = bytes(16)
    for i in range(0, len(blocks), 16):
        s = dot(xor(s, blocks[i : i + 16]), h)
    return s


# Wrapping, by the rule of the scope.


def length_block(aad, key):
    return (8 * len(aad)).to_bytes(8, "little") + (8 * len(key)).to_bytes(8, "little")


def tag_of(integrity, encryption, aad, key):
    s = polyval(integrity, aad + key + length_block(aad, key))
    return cipher(encryption, s[:15] + bytes([s[15] & 0x7F]))


def with_keystream(encryption, tag, text):
    """The text XORed with the keystream: a key becomes its ciphertext, a ciphertext its key."""
    first = int.from_bytes(tag[:4], "little")
    rest = tag[4:15] + bytes([tag[15] | 0x80])
    result = b""
    for i in range(len(text) // 16):
        counter = (first + i) % 2**32
        keystream = cipher(encryption, counter.to_bytes(4, "little") + rest)
        result += xor(text[16 * i : 16 * i + 16], keystream)
    return result


def wrap(integrity, encryption, aad, key):
    tag = tag_of(integrity, encryption, aad, key)
    return aad + tag + with_keystream(encryption, tag, key)


def unwrap(integrity, encryption, handle):
    """The key, or None."""
    aad, tag, ciphertext = handle[:16], handle[16:32], handle[32:]
    key = with_keystream(encryption, tag, ciphertext)
    return key if tag_of(integrity, encryption, aad, key) == tag else None


def key_with_tag(integrity, encryption, aad, high, tag):
    """The 32-byte key that ends in high and gets this tag: POLYVAL's steps are taken back to the first half.

    None where no key does: the tag decrypts to a block with its top bit set, or the integrity key is zero.
    """
    s = inv_cipher(encryption, tag)
    back = inverse(dot(integrity, ONE))  # dot(a, integrity) times this is a
    for block in [length_block(aad, high + high), high, dot(aad, integrity)]:
        s = xor(product(s, back), block)
    key = s + high
    return key if tag_of(integrity, encryption, aad, key) == tag else None


def handle_fits(integrity, encryption, aad, key, handle):
    return wrap(integrity, encryption, aad, key) == handle and unwrap(integrity, encryption, handle) == key


# For each kind of line, whether its fields fit each other.
KINDS = {
    "expand": lambda key, *words: b"".join(key_expansion(key)) == b"".join(words),
    "cipher": lambda key, plain, crypt: (cipher(key, plain), inv_cipher(key, crypt)) == (crypt, plain),
    "ctr": lambda key, counter, plain, crypt: (ctr(key, counter, plain), ctr(key, counter, crypt)) == (crypt, plain),
    "sum": lambda a, b, result: xor(a, b) == result,
    "dot": lambda a, b, result: dot(a, b) == result,
    "polyval": lambda h, blocks, result: polyval(h, blocks) == result,
    "handle": handle_fits,
    "refused": lambda integrity, encryption, handle: unwrap(integrity, encryption, handle) is None,
}


def fits(line):
    """Whether a line of a vector file is right; one that says nothing is."""
    fields = line.split("#")[0].split()
    return not fields or KINDS[fields[0]](*map(bytes.fromhex, fields[2:]))


def check():
    for file in VECTORS:
        for number, line in enumerate((ROOT / file).read_text().splitlines(), 1):
            try:
                right = fits(line)
            except Exception as error:  # a line that cannot be read; its place is worth more than the traceback
                sys.exit(f"{file}:{number}: {error!r}")
            if not right:
                sys.exit(f"{file}:{number}: computed anew, this comes out differently")


def main(args):
    if not args:
        check()
    elif len(args) == 5:
        key = key_with_tag(*map(bytes.fromhex, args))
        if key is None:
            sys.exit("no key has this tag")
        print(key.hex())
    else:
        sys.exit(__doc__)


if __name__ == "__main__":
    main(sys.argv[1:])
