#!/usr/bin/env python3
"""The tables in a built library: the S-box stands there once, its inverse nowhere, and no other constants in its place.

  constants.py ARCHIVE  exit with 1 unless that holds; print the bytes of its read-only data and of its code

A compiler may cut a constant into pieces of 16 bytes and put them in another order, or widen its entries. So what is looked for is every run of 16 entries of
the inverse S-box, forwards and backwards, one to eight bytes apart, in every section; and of the S-box each sixteenth by itself.
"""

import struct
import sys
from pathlib import Path

from key_locker import INV_SBOX, SBOX

WRITE, ALLOC, EXECUTE = 1, 2, 4
NOBITS = 8
RUN = 16
MOST = 580  # bytes of read-only data: 820 while the inverse was stored, and request (iii) asked for 240 fewer


def members(archive):
    """The files of an ar archive, but for its tables of symbols and of long names."""
    assert archive.startswith(b"!<arch>\n"), "not an archive"
    at = 8
    while at < len(archive):
        name, size = archive[at : at + 16].rstrip(), int(archive[at + 48 : at + 58])
        if name not in (b"/", b"//"):
            yield archive[at + 60 : at + 60 + size]
        at += 60 + size + size % 2


def sections(elf):
    """Flags and bytes of each section of a 64-bit little-endian ELF file that has bytes."""
    assert elf.startswith(b"\x7fELF\x02\x01"), "not a 64-bit little-endian ELF file"
    (table,) = struct.unpack_from("<Q", elf, 0x28)
    size, count = struct.unpack_from("<HH", elf, 0x3A)
    for i in range(count):
        kind, flags, _, start, length = struct.unpack_from("<IQQQQ", elf, table + i * size + 4)
        if kind != NOBITS:
            yield flags, elf[start : start + length]


def runs(table):
    """Every run of 16 entries, in both directions."""
    for line in (table, table[::-1]):
        for i in range(len(line) - RUN + 1):
            yield line[i : i + RUN]


def faults(found):
    """What is wrong with these sections."""
    inverse = set(runs(INV_SBOX))
    wrong = []
    for step in (1, 2, 4, 8):
        times = sum(body[i : i + step * RUN : step] in inverse for _, body in found for i in range(len(body) - step * (RUN - 1)))
        if times:
            wrong.append("%d runs of 16 entries of the inverse S-box, %d bytes apart" % (times, step))
    for i in range(0, 256, RUN):
        times = sum(body.count(SBOX[i : i + RUN]) for _, body in found)
        if times != 1:
            wrong.append("entries %d to %d of the S-box %d times" % (i, i + RUN - 1, times))
    return wrong


def check_itself():
    """Each kind of fault is seen, and nothing else is one."""
    data, pieces = (ALLOC, SBOX), [(ALLOC, SBOX[i : i + RUN]) for i in range(240, -1, -RUN)]
    assert not faults([data]) and not faults(pieces) and not faults([data, (ALLOC, INV_SBOX[:15] + bytes(1))])
    for planted in (INV_SBOX, INV_SBOX[37:53], INV_SBOX[::-1], SBOX[240:]):
        assert faults([data, (ALLOC | EXECUTE, b"\x90" * 5 + planted)])
    assert faults([data, (ALLOC, struct.pack("<16I", *INV_SBOX[100:116]))]) and faults(pieces[1:])


def main():
    check_itself()
    found = [section for elf in members(Path(sys.argv[1]).read_bytes()) for section in sections(elf)]
    constant = sum(len(body) for flags, body in found if flags & (WRITE | ALLOC | EXECUTE) == ALLOC)
    code = sum(len(body) for flags, body in found if flags & EXECUTE)
    print("constants: %d bytes of read-only data, %d of code" % (constant, code))
    wrong = faults(found)
    if constant > MOST:
        wrong.append("more read-only data than %d bytes" % MOST)
    if wrong:
        sys.exit("constants: " + "; ".join(wrong))
    print("constants: the S-box once, its inverse nowhere")


main()
