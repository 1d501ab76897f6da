#!/usr/bin/env python3
"""Makes crates/vectors/stdin and stdout, what the program vectors is given and has to write, from the files of test vectors.

  vectors_stdout.py          write these two files
  vectors_stdout.py --check  exit with 1 where one of them is something else

A line of a vector file has a kind, a name and fields of hexadecimal digits; '#' begins a comment.
"""

import re
import sys
from functools import partial
from pathlib import Path

ROOT = Path(__file__).resolve().parent.parent
VECTORS = ["tests/vectors/fips197.txt", "tests/vectors/rfc8452.txt", "tests/vectors/sp800-38a-ctr.txt", "tests/vectors/handles.txt"]
STDIN = "crates/vectors/stdin"
STDOUT = "crates/vectors/stdout"


class BadLine(Exception):
    pass


def require_bytes(field, *sizes):
    if len(field) not in [2 * size for size in sizes]:
        raise BadLine(f"{field} is not {' or '.join(map(str, sizes))} bytes")


def require_iwkey(integrity, encryption):
    require_bytes(integrity, 16)
    require_bytes(encryption, 32)


# One function for each kind of line: of its fields it makes those that the program is given, the one of variable length last, and the lines that it has
# to write. No result is among the former.


def expand(name, key, *words):
    require_bytes(key, 16, 32)
    for word in words:
        require_bytes(word, 4)
    count = {16: 44, 32: 60}[len(key) // 2]
    if len(words) != count or not "".join(words).startswith(key):
        raise BadLine(f"a schedule of this key has {count} words, the key first")
    return [key], [" ".join(["expand", name, *words])]


def cipher(name, key, plaintext, ciphertext):
    require_bytes(key, 16, 32)
    require_bytes(plaintext, 16)
    require_bytes(ciphertext, 16)
    return [plaintext, key], [
        f"encrypt {name} {ciphertext}",
        f"decrypt {name} {plaintext}",
        f"encrypt8 {name} {8 * ciphertext}",
        f"decrypt8 {name} {8 * plaintext}",
    ]


def operation(kind, name, a, b, result):
    for field in a, b, result:
        require_bytes(field, 16)
    return [a, b], [f"{kind} {name} {result}"]


def polyval(name, h, blocks, result):
    require_bytes(h, 16)
    require_bytes(blocks, *(16 * n for n in range(1, 8)))
    require_bytes(result, 16)
    return [h, blocks], [f"polyval {name} {result}"]


def handle(name, integrity, encryption, aad, key, handle):
    require_iwkey(integrity, encryption)
    require_bytes(aad, 16)
    require_bytes(key, 16, 32)
    require_bytes(handle, 32 + len(key) // 2)
    if not handle.startswith(aad):
        raise BadLine("a handle has the AAD first")
    return [integrity, encryption, aad, key], [f"wrap {name} {handle}", f"unwrap {name} {key}"]


def refused(name, integrity, encryption, handle):
    require_iwkey(integrity, encryption)
    require_bytes(handle, 48, 64)
    return [integrity, encryption, handle[:32], handle[32:64], handle[64:]], [f"unwrap {name} none"]


def ctr(name, key, counter, plaintext, ciphertext):
    require_bytes(key, 16, 32)
    require_bytes(counter, 16)
    require_bytes(plaintext, *range(1, 65))
    require_bytes(ciphertext, len(plaintext) // 2)
    given = [counter, f"{len(plaintext) // 2:02x}", plaintext.ljust(128, "0"), key]
    return given, [f"{kind} {name} {ciphertext} {plaintext}" for kind in ["ctr", "ctr-long", "ctr-wide"]]


# In the order of crates/vectors/src/example.rt.
KINDS = {
    "expand": expand,
    "cipher": cipher,
    "sum": partial(operation, "sum"),
    "dot": partial(operation, "dot"),
    "polyval": polyval,
    "handle": handle,
    "refused": refused,
    "ctr": ctr,
}


def lines_of(line):
    """The lines that the program reads and has to write for a line of a vector file."""
    kind, *fields = line.split("#")[0].split() or [None]
    if kind is None:
        return [], []
    if kind not in KINDS:
        raise BadLine(f"no kind {kind}")
    for field in fields[1:]:
        if not re.fullmatch("[0-9a-f]*", field):
            raise BadLine(f"{field} is not lowercase hexadecimal")
    try:
        given, written = KINDS[kind](*fields)
    except TypeError:
        raise BadLine(f"a line of kind {kind} does not have {len(fields)} fields") from None
    head = f"{list(KINDS).index(kind):02x}{len(given[-1]) // 32:02x}"
    return [" ".join([fields[0], head, *given])], written


def texts():
    """What each of the two files has to hold."""
    stdin, stdout = [], []
    for file in VECTORS:
        for number, line in enumerate((ROOT / file).read_text().splitlines(), 1):
            try:
                given, written = lines_of(line)
            except BadLine as bad:
                sys.exit(f"{file}:{number}: {bad}")
            stdin += given
            stdout += written
    return {path: "".join(line + "\n" for line in lines) for path, lines in [(STDIN, stdin), (STDOUT, stdout)]}


def check():
    for path, text in texts().items():
        if not (ROOT / path).is_file() or (ROOT / path).read_text() != text:
            sys.exit(f"{path} is not what the vectors say; tests/vectors_stdout.py makes it anew")


def main(args):
    if args == ["--check"]:
        check()
    elif not args:
        for path, text in texts().items():
            (ROOT / path).write_text(text)
    else:
        sys.exit(__doc__)


main(sys.argv[1:])
