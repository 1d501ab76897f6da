#!/usr/bin/env python3
"""Counter calls of the library against NIST's vectors and against OpenSSL, after make all.

Each is made through a handle by the simulator, with the wide bit and without it, and has to give the same ciphertext and, made again, the plaintext.
Prints a line for each test, and exits with 1 if one failed; without openssl its part is left out.

  counter.py [SEED]  other keys, lengths and counters than those of seed 1
"""

import random
import shutil
import subprocess
import sys
from dataclasses import dataclass
from pathlib import Path

ROOT = Path(__file__).resolve().parent.parent
PROGRAM = ROOT / "build/keylocker-simulator"
VECTORS = ROOT / "tests/vectors/sp800-38a-ctr.txt"
MESSAGES = 300
LIMIT = 65_536


@dataclass(frozen=True)
class Message:
    place: str
    key: bytes
    counter: bytes
    plain: bytes
    crypt: bytes

    size = property(lambda self: 8 * len(self.key))


def hexadecimal(data):
    return data.hex() or "00*0"


def statements(message):
    yield f"cpu 0 encodekey{message.size} {message.key.hex()} no-decrypt -> handle"
    yield f"bytes plain = {hexadecimal(message.plain)}"
    yield f"cpu 0 cpl 3 ctr handle {message.counter.hex()} {'plain' if message.plain else 'empty'} -> sealed"
    yield f"expect sealed = {hexadecimal(message.crypt)}"
    yield f"cpu 0 cpl 3 ctr handle {message.counter.hex()} sealed -> opened"
    yield "expect opened = plain"


def trace(messages):
    """The same calls on a machine with the wide bit and on one without it."""
    for power_on in ["power-on 1", "power-on 1 without wide"]:
        yield power_on
        yield "cpu 0 loadiwkey 8d3a61f0c2975be4107fa9d84c26e35b 5e81b7d20f946c3ae7154bd8a2f06c937b12de48f5039ac6610e8fd427ba5931"
        for message in messages:
            yield from statements(message)


def simulate(lines):
    return subprocess.run([PROGRAM, "--quiet", "-"], input="\n".join(lines), capture_output=True, text=True)


def check(what, messages):
    """All of them are met, and none of them is where one byte of the last ciphertext is another: what does not fail tells nothing."""
    result = simulate(trace(messages))
    if result.returncode != 0 or f"{4 * len(messages)} expectations, 0 of them not met" not in result.stdout:
        sys.exit(f"{what}: FAILED\n{result.stdout[-2000:]}{result.stderr}")
    last = next(message for message in reversed(messages) if message.crypt)
    wrong = Message(last.place, last.key, last.counter, last.plain, last.crypt[:-1] + bytes([last.crypt[-1] ^ 1]))
    if simulate(trace([wrong])).stdout.count("NOT MET") != 2:
        sys.exit(f"{what}: FAILED: another ciphertext is not told")
    print(f"{what}: {len(messages)} messages, with the wide bit and without: passed", flush=True)


def vectors():
    lines = [line.split() for line in VECTORS.read_text().splitlines() if line.startswith("ctr ")]
    return [Message(place, *map(bytes.fromhex, fields)) for _, place, *fields in lines]


# ---- OpenSSL


def openssl(key, counter, plain):
    command = ["openssl", "enc", f"-aes-{8 * len(key)}-ctr", "-K", key.hex(), "-iv", counter.hex()]
    return subprocess.run(command, input=plain, capture_output=True, check=True).stdout


def some_length(rng, number):
    """Around blocks and groups of eight of them, anything up to 3,000 bytes, and a few at the limit."""
    if number % 60 == 59:
        return LIMIT - rng.randrange(2)
    return rng.choice([1, 15, 16, 17, 127, 128, 129, 255, 256, 257, rng.randrange(600), rng.randrange(3000)])


def some_counter(rng):
    """Any, or a few blocks below where it carries out of its low 32, 64 or 128 bits."""
    bits = rng.choice([0, 8, 16, 32, 32, 64, 64, 128, 128])
    high = rng.getrandbits(128) >> bits << bits
    return ((high + 2**bits - rng.randrange(1, 20)) % 2**128).to_bytes(16, "big")


def random_messages(seed):
    rng = random.Random(seed)
    for number in range(MESSAGES):
        key, counter = rng.randbytes(rng.choice([16, 32])), some_counter(rng)
        plain = rng.randbytes(some_length(rng, number))
        yield Message(f"random {number}", key, counter, plain, openssl(key, counter, plain))


def main(args):
    seed = int(args[0]) if args else 1
    check("SP 800-38A and counters that carry", vectors())
    if shutil.which("openssl") is None:
        print("OpenSSL: not here, so left out")
        return
    check(f"OpenSSL, seed {seed}", list(random_messages(seed)))


if __name__ == "__main__":
    main(sys.argv[1:])
