#!/usr/bin/env python3
"""A second decoder of instruction strings beside the proved one, and a comparison of the proved one with GNU objdump.

  decoder.py --stdout   from tests/vectors/strings.txt write crates/disassemble/stdin and crates/disassemble/stdout, what the program
                        disassemble has to write
  decoder.py --check    exit with 1 where one of these two files is something else
  decoder.py --objdump  run crates/disassemble/out/disassemble, and exit with 1 where it differs from objdump on accepted strings, or from this decoder on
                        others. Accepted strings: LOCK or none, 67 or none, REX 40 to 4F or none, with every opcode, ModRM and SIB byte that goes with
                        them

It is written from the scope (see docs/DECISIONS.md) and from nothing under crates/.
"""

import random
import re
import subprocess
import sys
import tempfile
from collections import namedtuple
from itertools import product
from pathlib import Path

ROOT = Path(__file__).resolve().parent.parent
VECTORS = ROOT / "tests/vectors/strings.txt"
STDIN = ROOT / "crates/disassemble/stdin"
STDOUT = ROOT / "crates/disassemble/stdout"
PROGRAM = ROOT / "crates/disassemble/out/disassemble"

# ---- the second decoder

# What the opcode, mod 3 or not, and the reg field say; a reg field of None may be any.
Form = namedtuple("Form", "mnemonic opcode memory reg operands")

FORMS = [
    Form("aesenc128kl", 0xDC, True, None, ["xmm reg", "memory"]),
    Form("aesdec128kl", 0xDD, True, None, ["xmm reg", "memory"]),
    Form("aesenc256kl", 0xDE, True, None, ["xmm reg", "memory"]),
    Form("aesdec256kl", 0xDF, True, None, ["xmm reg", "memory"]),
    Form("aesencwide128kl", 0xD8, True, 0, ["memory"]),
    Form("aesdecwide128kl", 0xD8, True, 1, ["memory"]),
    Form("aesencwide256kl", 0xD8, True, 2, ["memory"]),
    Form("aesdecwide256kl", 0xD8, True, 3, ["memory"]),
    Form("loadiwkey", 0xDC, False, None, ["xmm reg", "xmm rm"]),
    Form("encodekey128", 0xFA, False, None, ["r32 reg", "r32 rm"]),
    Form("encodekey256", 0xFB, False, None, ["r32 reg", "r32 rm"]),
]

LOW = ["ax", "cx", "dx", "bx", "sp", "bp", "si", "di"]
R64 = ["r" + name for name in LOW] + [f"r{n}" for n in range(8, 16)]
R32 = ["e" + name for name in LOW] + [f"r{n}d" for n in range(8, 16)]
XMM = [f"xmm{n}" for n in range(16)]

# What a memory place names: registers and the next instruction's place. 67 is told by these names alone.
AddressSize = namedtuple("AddressSize", "bits registers ip")

BITS_64 = AddressSize(64, R64, "rip")
BITS_32 = AddressSize(32, R32, "eip")


class Refused(Exception):
    pass


class Reader:
    def __init__(self, string):
        self.string = string
        self.at = 0

    def peek(self):
        if self.at == len(self.string):
            raise Refused(9)
        return self.string[self.at]

    def take(self, among=range(256)):
        byte = self.peek()
        if byte not in among:
            raise Refused(8)
        self.at += 1
        return byte

    def accept(self, byte):
        """Whether it is next; then it is taken."""
        found = self.peek() == byte
        self.at += found
        return found

    def signed(self, size):
        return int.from_bytes([self.take() for _ in range(size)], "little", signed=True)


def memory_text(base, index, scale, displacement):
    """The parts that are there; a displacement of 0 only where nothing else is."""
    parts = [base] if base else []
    if index:
        parts.append(f"{index}*{scale}")
    text = "+".join(parts)
    if displacement < 0:
        text += f"-{-displacement:#x}"
    elif displacement or not parts:
        text += ("+" if parts else "") + f"{displacement:#x}"
    return f"[{text}]"


def absolute_text(size, displacement):
    """Neither base nor index. With 67 the displacement, modulo 2^32, is the address, and eiz (no register, objdump's word) tells that it is there."""
    return f"[eiz*1+{displacement % 2**32:#x}]" if size == BITS_32 else memory_text(None, None, 1, displacement)


def memory(reader, mod, rm, rex, size):
    """SDM volume 2, tables 2-2, 2-3 and 2-5: without REX.B it is told whether there is a SIB byte, and a base; with REX.X, whether there is an index."""
    index, scale = None, 1
    if rm == 4:
        sib = reader.take()
        if (rex & 2, sib >> 3 & 7) != (0, 4):
            index = size.registers[(rex & 2) << 2 | sib >> 3 & 7]
        scale = 1 << (sib >> 6)
        rm = sib & 7
        without_base = None
    else:
        without_base = size.ip
    if (mod, rm) == (0, 5):
        displacement = reader.signed(4)
        return memory_text(without_base, index, scale, displacement) if without_base or index else absolute_text(size, displacement)
    base = size.registers[(rex & 1) << 3 | rm]
    return memory_text(base, index, scale, reader.signed([0, 1, 4][mod]))


def instruction(reader):
    lock = reader.accept(0xF0)
    size = BITS_32 if reader.accept(0x67) else BITS_64
    reader.take([0xF3])
    rex = reader.take() & 15 if 0x40 <= reader.peek() <= 0x4F else 0
    reader.take([0x0F])
    reader.take([0x38])
    opcode = reader.take([form.opcode for form in FORMS])
    modrm = reader.peek()
    mod, reg, rm = modrm >> 6, modrm >> 3 & 7, modrm & 7
    forms = [f for f in FORMS if f.opcode == opcode and f.memory == (mod != 3) and f.reg in [None, reg]]
    if not forms:
        raise Refused(8)
    reader.take()
    form = forms[0]
    extended_reg = (rex & 4) << 1 | reg
    extended_rm = (rex & 1) << 3 | rm
    text = {
        "xmm reg": lambda: XMM[extended_reg],
        "xmm rm": lambda: XMM[extended_rm],
        "r32 reg": lambda: R32[extended_reg],
        "r32 rm": lambda: R32[extended_rm],
        "memory": lambda: memory(reader, mod, rm, rex, size),
    }
    operands = ", ".join(text[operand]() for operand in form.operands)
    return f"{'lock ' if lock else ''}{form.mnemonic} {operands}"


def decode(string):
    reader = Reader(string)
    try:
        text = instruction(reader) if string else "idle"
    except Refused as refused:
        return f"refused {refused}"
    return f"{text} ; {reader.at} bytes"


# ---- what disassemble is run on, and what it has to write


def vectors():
    """The lines of the vector file, as disassemble gets them, without blanks and comments; the word empty stands for an empty line."""
    for line in VECTORS.read_text().splitlines():
        line = "".join(line.partition("#")[0].split())
        if line:
            yield "" if line == "empty" else line


def answer_string(line):
    """disassemble looks at no more than 32 characters of a line. None where they are not hexadecimal."""
    line = line[:32]
    return bytes.fromhex(line) if re.fullmatch("([0-9a-fA-F]{2})*", line) else None


def answer(line):
    string = answer_string(line)
    return "not hexadecimal" if string is None else decode(string)


def files():
    lines = list(vectors())
    return {STDIN: lines, STDOUT: [answer(line) for line in lines]}


def write():
    for path, lines in files().items():
        path.write_text("".join(line + "\n" for line in lines))


def check():
    for path, lines in files().items():
        if path.read_text() != "".join(line + "\n" for line in lines):
            sys.exit(f"{path.relative_to(ROOT)} is not what tests/decoder.py --stdout writes")


# ---- strings

EDGES = {0: [0], 1: [0, 1, 0x7F, 0x80, 0xFF], 4: [0, 1, 0x7FFFFFFF, 0x80000000, 0xFFFFFFFF]}


def displacement(rng, size):
    value = rng.choice(EDGES[size]) if rng.random() < 0.25 else rng.randrange(256**size)
    return value.to_bytes(size, "little")


def operand_bytes(rng, form):
    """All ModRM bytes of a form with all SIB bytes, each with some displacement."""
    for modrm in range(256):
        mod, reg, rm = modrm >> 6, modrm >> 3 & 7, modrm & 7
        if form.memory != (mod != 3) or form.reg not in [None, reg]:
            continue
        for sib in range(256) if form.memory and rm == 4 else [None]:
            low = rm if sib is None else sib & 7
            size = 0 if mod == 3 else 4 if (mod, low) == (0, 5) else [0, 1, 4][mod]
            yield bytes([modrm] if sib is None else [modrm, sib]) + displacement(rng, size)


def accepted(rng):
    rexes = [b""] + [bytes([0x40 + bits]) for bits in range(16)]
    for lock, size, rex, form in product([b"", b"\xf0"], [b"", b"\x67"], rexes, FORMS):
        for operands in operand_bytes(rng, form):
            yield lock + size + b"\xf3" + rex + bytes([0x0F, 0x38, form.opcode]) + operands


def altered(rng, string):
    """With one byte changed, put in or taken out, or cut off somewhere; half of the changes are to a byte that matters somewhere."""
    at = rng.randrange(len(string))
    byte = bytes([rng.choice([0xF0, 0xF2, 0xF3, 0x66, 0x67, 0x2E, 0x40, 0x4F, 0x0F, 0x38, 0x3A, 0xD8, 0xDB, 0xDD, 0xFA, 0xC0, 0x20])])
    if rng.random() < 0.5:
        byte = bytes([rng.randrange(256)])
    end = rng.choice([at, at + 1])
    return rng.choice([string[:at] + byte + string[end:], string[:at] + string[at + 1 :], string[:at]])


# ---- the comparison


def disassemble(strings):
    text = "".join(string.hex() + "\n" for string in strings)
    run = subprocess.run([PROGRAM], input=text, capture_output=True, text=True, check=True)
    lines = run.stdout.splitlines()
    if len(lines) != len(strings):
        sys.exit(f"disassemble wrote {len(lines)} lines for {len(strings)} strings")
    return lines


# Each string has a place of its own, filled up with nops.
PLACE = 16


def objdump(strings):
    """What objdump says at each string's place, and how many bytes it says it of."""
    with tempfile.NamedTemporaryFile() as binary:
        for string in strings:
            binary.write(string.ljust(PLACE, b"\x90"))
        binary.flush()
        command = ["objdump", "-D", "-b", "binary", "-m", "i386:x86-64", "-M", "intel", f"--insn-width={PLACE}", binary.name]
        with subprocess.Popen(command, stdout=subprocess.PIPE, text=True) as run:
            for line in run.stdout:
                fields = line.rstrip("\n").split("\t")
                if len(fields) == 3 and int(fields[0].rstrip(":"), 16) % PLACE == 0:
                    yield fields[2].strip(), len(fields[1].split())
        if run.returncode:
            sys.exit("objdump failed")


def signed_64(text):
    """objdump writes some displacements modulo 2^64."""
    value = int(text, 16)
    return value - 2**64 if value >= 2**63 else value


def same_memory(text):
    """A memory place of objdump as disassemble writes it."""
    # no base and no index: ds:0x10 without brackets, but with 67 [eiz*1+0x10]
    if text.startswith("ds:"):
        return absolute_text(BITS_64, signed_64(text[3:]))
    base, index, scale, number, size = None, None, 1, 0, BITS_64
    for sign, part in re.findall(r"([+-]?)([^+-]+)", text[1:-1]):
        if part.startswith("0x"):
            number = -signed_64(part) if sign == "-" else signed_64(part)
        elif part.startswith(("riz*", "eiz*")):
            # a SIB byte without an index, where no index could be told from a place without SIB: riz times its scale
            size = BITS_32 if part.startswith("e") else BITS_64
        elif "*" in part:
            index, scale = part.split("*")
        else:
            base = part
    if not base and not index:
        return absolute_text(size, number)
    # a displacement of 0 that stands in the string is written by objdump, and left out by disassemble
    return memory_text(base, index, int(scale), number)


def same_text(text, size):
    """objdump's line as disassemble writes it."""
    # the address that a place relative to RIP comes to, as a comment
    text = re.sub(r" +# .*", "", text)
    # a REX byte of which a bit has no effect, or that has none set: rex or rex.WRXB before the mnemonic
    # 67 where no memory place tells of it: addr32
    words = [word for word in text.split() if not re.fullmatch(r"rex(\.W?R?X?B?)?|addr32", word)]
    # operands without a blank between them; only memory places differ
    operands = words.pop().split(",")
    operands = [same_memory(o) if o.startswith(("[", "ds:")) else o for o in operands]
    return f"{' '.join(words)} {', '.join(operands)} ; {size} bytes"


def compare(what, strings, expected, found):
    for string, a, b in zip(strings, expected, found, strict=True):
        if a != b:
            sys.exit(f"{string.hex()}: {what} says '{a}', and disassemble '{b}'")
    refused = sum(line.startswith("refused") for line in found)
    print(f"{len(found)} strings, {refused} of them refused: disassemble says what {what} says")


def listed():
    """The instructions among the lines of the vector file, without the bytes after them."""
    for line in vectors():
        length = re.search("; ([1-9][0-9]*) bytes$", answer(line))
        if length:
            yield bytes.fromhex(line[:32])[: int(length[1])]


def test():
    examples = list(listed())
    compare("objdump", examples, (same_text(*line) for line in objdump(examples)), disassemble(examples))
    rng = random.Random(20201)
    strings = list(accepted(rng))
    # bytes after an instruction are ignored, however many
    longer = [string + rng.randbytes(rng.choice([0, 0, 1, 4, 30])) for string in strings]
    found = disassemble(longer)
    compare("objdump", strings, (same_text(*line) for line in objdump(strings)), found)
    compare("tests/decoder.py", longer, map(decode, longer), found)
    others = [altered(rng, string) for string in rng.sample(strings, 200_000)]
    compare("tests/decoder.py", others, map(decode, others), disassemble(others))


ACTIONS = {"--stdout": write, "--check": check, "--objdump": test}

if __name__ == "__main__":
    if len(sys.argv) != 2 or sys.argv[1] not in ACTIONS:
        sys.exit(__doc__)
    ACTIONS[sys.argv[1]]()
