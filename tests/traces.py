#!/usr/bin/env python3
"""The simulator's trace language (simulator/TRACES.md) over the model of tests/model.py, to check what traces expect.

  traces.py                  run all traces of the repository, and exit with 1 at the first expectation that the model does not meet
  traces.py FILE             the same for one file
  traces.py --found FILE     print the trace, with what the model says in place of what it expects of bytes
  traces.py --random N SEED  print a trace of N random calls, with all that the model says of each as an expectation
  traces.py --keyrings N SEED  the same for N random calls on keyrings

It shares nothing with the program but the language's description; a line that is not in the language ends in an exception.
"""

import random
import re
import sys
from pathlib import Path

import key_locker
import model
from model import Cpu, Refused

ROOT = Path(__file__).resolve().parent.parent
LANGUAGE = ROOT / "simulator/TRACES.md"
TRACES = [ROOT / "simulator/scenario.trace", *sorted((ROOT / "tests/traces").glob("*.trace"))]

FEATURES = ["kl", "firmware", "wide", "backup", "no-backup", "random"]
MSRS = {
    "ia32_copy_status": 0x990,
    "ia32_iwkeybackup_status": 0x991,
    "ia32_copy_local_to_platform": 0xD91,
    "ia32_copy_platform_to_local": 0xD92,
}
GENERAL = ["rax", "rcx", "rdx", "rbx", "rsp", "rbp", "rsi", "rdi"] + [f"r{n}" for n in range(8, 16)]
# Each as its place and size in the CPU record.
REGISTERS = {name: (256 + 8 * n, 8) for n, name in enumerate(GENERAL)} | {"rip": (384, 8), "rflags": (392, 8), "cpl": (400, 1), "control": (401, 1)}
XMM = {f"xmm{n}": n for n in range(16)}
CPUID_REGISTERS = ["eax", "ebx", "ecx", "edx"]
# Document 01, "Turned back", and 15 to 18 of document 02, by the names of the header.
REFUSALS = {
    name: number
    for number, name in enumerate(
        "bad_machine bad_code bad_processor bad_cpu_size bad_cpu bad_memory bad_random bad_byte string_ends ud nm gp ss pf "
        "bad_keyring no_label keyring_full bad_size".split(),
        1,
    )
}
STOPS = ["->", "=", "random", "encryption", "no-backup", "cpl0-only", "no-encrypt", "no-decrypt", "restrict"]
USES = {f"aes{way}{wide}{size}kl": None for way in ["enc", "dec"] for wide in ["", "wide"] for size in [128, 256]}
OPCODES = {"aesenc128kl": 0xDC, "aesdec128kl": 0xDD, "aesenc256kl": 0xDE, "aesdec256kl": 0xDF, "encodekey128": 0xFA, "encodekey256": 0xFB, "loadiwkey": 0xDC}
WIDE = ["aesencwide128kl", "aesdecwide128kl", "aesencwide256kl", "aesdecwide256kl"]
HANDLE_PLACE = model.MEMORY_LIMIT - 64


class Unmet(Exception):
    pass


def number(text):
    assert re.fullmatch("0[xX][0-9a-fA-F]+|[0-9]+", text), text
    return int(text, 16 if text[:2] in ["0x", "0X"] else 10)


class Trace:
    def __init__(self):
        self.machine = bytes(model.MACHINE_SIZE)
        self.memory = bytearray(model.MEMORY_LIMIT + 1)
        self.memory_len = model.MEMORY_LIMIT
        self.names = {}
        self.keyring = b""
        self.number = self.zf = self.value = self.cpuid_answer = self.kind = None  # of the last call
        self.fresh_cpus()

    def fresh_cpus(self):
        cpu = Cpu()
        cpu.rflags = 2
        cpu.bytes[401] = model.CR4_KL | model.CR4_OSFXSR
        self.cpus = [bytearray(cpu.bytes) for _ in range(256)]

    # ---- byte strings

    def factor(self, text):
        found = re.fullmatch(r"([\w.-]+)(?:\[(\w+)(?:\.\.(\w+))?\])?(?:\*(\w+))?", text)
        base, first, last, times = found.groups()
        if re.fullmatch("[0-9a-fA-F]+", base):
            value = bytes.fromhex(base)
        elif base in self.names:
            value = self.names[base]
        elif base.lower() in XMM:
            value = Cpu(self.cpu).xmm(XMM[base.lower()])
        else:
            value = self.lent(base)
        if first is not None:
            begin, end = number(first), number(last or first)
            assert begin <= end < len(value), text
            value = value[begin : end + 1]
        return value * (number(times) if times else 1)

    def lent(self, word):
        lent = {"machine": lambda: self.machine, "memory": lambda: bytes(self.memory[: self.memory_len]), "record": lambda: bytes(self.cpu)}
        return self.keyring if word == "keyring" else lent[word]()

    def word_bytes(self, word):
        first, *others = map(self.factor, word.split("^"))
        for other in others:
            first = key_locker.xor(first, other)
        return first

    def bytes(self, size=None):
        value = self.word_bytes(self.words.pop(0))
        while self.words and self.words[0].lower() not in STOPS:
            value += self.word_bytes(self.words.pop(0))
        assert size is None or len(value) == size, (size, len(value))
        return value

    # ---- words of a statement

    def accept(self, keyword):
        is_next = bool(self.words) and self.words[0].lower() == keyword
        if is_next:
            self.words.pop(0)
        return is_next

    def need(self, keyword):
        assert self.accept(keyword), keyword

    def take_number(self):
        return number(self.words.pop(0))

    def new_name(self):
        name = self.words.pop(0)
        assert re.fullmatch(r"[\w.-]+", name) and not re.fullmatch("[0-9a-fA-F]+", name), name
        return name

    def result(self, value):
        if self.accept("->"):
            self.names[self.new_name()] = value

    def call(self, function):
        """The call's result, or None where it is refused."""
        self.number, self.zf, self.value, self.cpuid_answer, self.kind = 0, None, None, None, None
        try:
            return function()
        except Refused as refused:
            self.number = refused.number
            return None

    def machine_call(self, function):
        machine = self.call(function)
        if machine is not None:
            self.machine = machine

    # ---- statements

    def power_on(self):
        count, bits = self.take_number(), model.ALL_FEATURES
        listed = "features" if self.accept("features") else "without" if self.accept("without") else None
        if listed:
            words, self.words = [word.lower() for word in self.words], []
            given = sum({1 << FEATURES.index(word) if word in FEATURES else model.ALL_FEATURES if word == "all" else number(word) for word in words})
            bits = given if listed == "features" else bits & ~given
        self.machine_call(lambda: model.power_on(count, bits, self.machine))
        if self.number == 0:
            self.fresh_cpus()

    def code(self, names):
        word = self.words.pop(0)
        return names.index(word.lower()) if word.lower() in names else number(word)

    def taken(self):
        self.machine_call(lambda: model.taken(self.machine))

    def settle(self):
        code = self.code(["good", "bad"])
        self.machine_call(lambda: model.settle(self.machine, code))

    def sleep(self):
        code = self.code(["old", "new", "junk"])
        self.machine_call(lambda: model.sleep(self.machine, code))

    def reset(self):
        self.machine_call(lambda: model.reset(self.machine))
        if self.number == 0:
            self.fresh_cpus()

    def set_machine(self):
        self.need("=")
        self.machine = self.bytes()

    def set_memory(self):
        if self.accept("size"):
            self.memory_len = self.take_number()
            assert self.memory_len <= len(self.memory)
            return
        address = self.take_number()
        self.need("=")
        data = self.bytes()
        assert address + len(data) <= model.MEMORY_LIMIT
        self.memory[address : address + len(data)] = data

    def on_keyring(self):
        if self.accept("="):
            self.keyring = self.bytes()
        elif self.accept("records"):
            self.keyring = bytes(model.RECORD * self.take_number())
        elif self.accept("add"):
            label, handle = self.word_bytes(self.words.pop(0)), self.bytes()
            after = self.call(lambda: model.keyring_add(self.keyring, label, handle))
            self.keyring = self.keyring if after is None else after
        else:
            self.need("lookup")
            label = self.word_bytes(self.words.pop(0))
            self.kind, handle = self.call(lambda: model.keyring_lookup(self.keyring, label)) or (None, None)
            self.result(handle)

    def define(self):
        name = self.new_name()
        self.need("=")
        self.names[name] = self.bytes()

    def define_iwkey(self):
        name = self.new_name()
        self.need("=")
        self.need("integrity")
        integrity = self.bytes(16)
        self.need("encryption")
        self.names[name] = integrity + self.bytes(32)

    def show(self):
        if self.words and self.cpu is not None and self.words[0].lower() in REGISTERS:
            self.words.pop(0)
        elif self.words:
            self.bytes()

    def refusal(self):
        word = self.words.pop(0).lower()
        return REFUSALS[word.removeprefix("keylocker_")] if word[0].isalpha() else number(word)

    def expect(self):
        first = self.words[0].lower()
        if self.accept("done"):
            found, wanted = self.number, 0
        elif self.accept("refused"):
            found, wanted = self.number, self.refusal()
        elif self.accept("zf"):
            found, wanted = self.zf, self.take_number()
        elif self.accept("value"):
            found, wanted = self.value, self.take_number()
        elif self.accept("kind"):
            found, wanted = self.kind, self.take_number()
        elif first in CPUID_REGISTERS:
            self.words.pop(0)
            answer = self.cpuid_answer
            found, wanted = answer and answer[CPUID_REGISTERS.index(first)], self.take_number()
        elif first in REGISTERS:
            self.words.pop(0)
            self.need("=")
            at, size = REGISTERS[first]
            found, wanted = int.from_bytes(self.cpu[at : at + size], "little"), self.take_number()
        else:
            found = self.bytes()
            self.need("=")
            wanted = self.bytes()
            self.found = found
            found, wanted = found.hex(), wanted.hex()
        if found != wanted:
            raise Unmet(f"the model has {found}")

    # ---- statements on a processor

    def lent_record(self):
        """The CPU record, with the CPL of the statement."""
        record = bytearray(self.cpu)
        if self.cpl is not None and len(record) > 400:
            record[400] = self.cpl
        return bytes(record)

    def keep_record(self, record, own_cpl):
        """What a call that writes ZF left of it; the CPL of the statement goes."""
        self.cpu = self.cpus[self.processor] = bytearray(record)
        self.cpu[400] = own_cpl
        self.zf = Cpu(self.cpu).rflags >> 6 & 1

    def step(self, string, random_data=b""):
        """Whether it was done."""
        own_cpl = self.cpu[400] if len(self.cpu) > 400 else None
        before = self.lent_record()
        memory = memoryview(self.memory)[: self.memory_len]
        after = self.call(lambda: model.step(self.machine, self.processor, before, memory, random_data, string))
        if after is None:
            return False
        self.machine = after[0]
        self.keep_record(after[1], own_cpl)
        return True

    def ctr(self):
        handle, counter = (self.word_bytes(self.words.pop(0)) for _ in range(2))
        data = b"" if self.accept("empty") else self.bytes()
        own_cpl = self.cpu[400] if len(self.cpu) > 400 else None
        after = self.call(lambda: model.ctr(self.machine, self.processor, self.lent_record(), handle, counter, data))
        if after is not None:
            self.keep_record(after[0], own_cpl)
        self.result(after[1] if after is not None and self.zf == 0 else None)

    def put(self, *blocks):
        data = b"".join(blocks)
        self.cpu[: len(data)] = data

    def put_register(self, name, value):
        at, size = REGISTERS[name]
        self.cpu[at : at + size] = value.to_bytes(size, "little")

    def random_data(self):
        """None without the word."""
        if not self.accept("random"):
            return None
        return b"" if self.accept("not-ready") else self.bytes()

    def loadiwkey(self):
        key = self.bytes(48)
        no_backup = self.accept("no-backup")
        random_data = self.random_data()
        no_backup |= self.accept("no-backup")
        assert not self.words
        self.put(key)
        self.put_register("rax", no_backup + 2 * (random_data is not None))
        self.step(bytes.fromhex("f30f38dcd1"), random_data or b"")

    def encodekey(self, mnemonic):
        size = 32 if "256" in mnemonic else 16
        key, restrictions = self.bytes(size), 0
        while self.words and self.words[0] != "->":
            word = self.words.pop(0).lower()
            restrictions |= self.take_number() if word == "restrict" else 1 << ["cpl0-only", "no-encrypt", "no-decrypt"].index(word)
        self.put(key)
        self.put_register("rcx", restrictions)
        done = self.step(bytes([0xF3, 0x0F, 0x38, OPCODES[mnemonic], 0xC1]))
        self.result(bytes(self.cpu[: 32 + size]) if done else None)

    def use(self, mnemonic):
        address = HANDLE_PLACE
        if self.accept("at"):
            address = self.take_number()
        else:
            self.memory[HANDLE_PLACE : HANDLE_PLACE + 64] = self.word_bytes(self.words.pop(0)).ljust(64, b"\0")
        wide = mnemonic in WIDE
        size = 128 if wide else 16
        self.put(self.bytes(size))
        modrm = 4 + 8 * WIDE.index(mnemonic) if wide else 4
        string = bytes([0xF3, 0x0F, 0x38, 0xD8 if wide else OPCODES[mnemonic], modrm, 0x25]) + address.to_bytes(4, "little")
        opened = self.step(string) and self.zf == 0
        self.result(bytes(self.cpu[:size]) if opened else None)

    def raw_step(self):
        string = b"" if self.accept("empty") else self.bytes()
        self.step(string, self.random_data() or b"")

    def cpuid(self):
        leaf = self.take_number()
        subleaf = self.take_number() if self.words else 0
        assert max(leaf, subleaf) < 2**32
        self.cpuid_answer = self.call(lambda: model.cpuid(self.machine, self.lent_record(), leaf, subleaf))

    def register_address(self):
        word = self.words.pop(0)
        return MSRS[word.lower()] if word.lower() in MSRS else number(word)

    def register_cpl(self):
        return self.cpu[400] if self.cpl is None else self.cpl

    def read(self):
        address = self.register_address()
        self.value = self.call(lambda: model.read(self.machine, self.processor, self.register_cpl(), address))

    def write(self):
        address, value = self.register_address(), self.take_number()
        self.machine_call(lambda: model.write(self.machine, self.processor, self.register_cpl(), address, value))

    def set_register(self):
        word = self.words.pop(0).lower()
        self.need("=")
        if word in XMM:
            self.cpu[16 * XMM[word] : 16 * XMM[word] + 16] = self.bytes(16)
        elif word == "record":
            # what a shorter record leaves of the old one is not lent
            self.cpus[self.processor] = self.cpu = bytearray(self.bytes())
        else:
            self.put_register(word, self.take_number())

    def on_cpu(self):
        self.processor = self.take_number()
        self.cpu = self.cpus[self.processor]
        self.cpl = self.take_number() if self.accept("cpl") else None
        verb = self.words.pop(0).lower()
        if verb in USES:
            self.use(verb)
        elif verb.startswith("encodekey"):
            self.encodekey(verb)
        else:
            VERBS[verb](self)

    # ---- lines

    def run(self, line):
        text = line.strip(" \t\r")
        if re.match(r"say(\s|$)", text, re.I):
            return
        self.words = text.split("#")[0].split()
        self.cpu = self.processor = self.found = None
        if self.words:
            STATEMENTS[self.words.pop(0).lower()](self)
            assert not self.words, self.words


STATEMENTS = {
    "cpu": Trace.on_cpu,
    "power-on": Trace.power_on,
    "taken": Trace.taken,
    "settle": Trace.settle,
    "sleep": Trace.sleep,
    "reset": Trace.reset,
    "machine": Trace.set_machine,
    "memory": Trace.set_memory,
    "keyring": Trace.on_keyring,
    "bytes": Trace.define,
    "iwkey": Trace.define_iwkey,
    "show": Trace.show,
    "expect": Trace.expect,
}
VERBS = {
    "loadiwkey": Trace.loadiwkey,
    "step": Trace.raw_step,
    "ctr": Trace.ctr,
    "cpuid": Trace.cpuid,
    "read": Trace.read,
    "write": Trace.write,
    "set": Trace.set_register,
    "bytes": Trace.define,
    "show": Trace.show,
    "expect": Trace.expect,
}


def check(what, text):
    trace = Trace()
    for place, line in enumerate(text.splitlines(), 1):
        try:
            trace.run(line)
        except Unmet as unmet:
            sys.exit(f"{what}:{place}: {line.strip()}: {unmet}")
        except Exception as error:  # the place is worth more than the traceback
            sys.exit(f"{what}:{place}: {error!r}")


def language_examples():
    """The traces in the language's description."""
    return re.findall(r"```trace\n(.*?)```", LANGUAGE.read_text(), re.S)


def check_all():
    for file in TRACES:
        check(file.relative_to(ROOT), file.read_text())
    for count, example in enumerate(language_examples(), 1):
        check(f"{LANGUAGE.relative_to(ROOT)}, example {count}", example)


def print_found(text):
    trace = Trace()
    for line in text.splitlines():
        try:
            trace.run(line)
        except Unmet:
            if trace.found is not None:
                line = f"{line.split('=')[0].rstrip()} = {trace.found.hex()}"
        print(line)


# ---- random traces


class RandomStatements:
    """Random statements, printed, and run by the model."""

    def __init__(self, seed):
        self.random = random.Random(seed)
        self.trace = Trace()

    def statement(self, text):
        print(text)
        self.trace.run(text)

    def hex(self, size):
        return self.random.randbytes(size).hex()

    def some(self, *choices):
        return self.random.choice(choices)


class RandomTrace(RandomStatements):
    """Statements that are random but meet each other: few keys, handles and processors, so that some handles open and some copies fail."""

    def begin(self):
        for n in range(3):
            self.statement(f"iwkey iw{n} = integrity {self.hex(16)} encryption {self.hex(32)}")
            self.statement(f"bytes key128-{n} = {self.hex(16)}")
            self.statement(f"bytes key256-{n} = {self.hex(32)}")
        self.statement("power-on 3")
        for n in range(3):
            self.statement(f"cpu {n} loadiwkey iw{self.some(0, 0, n)}")
            self.statement(f"cpu {n} encodekey128 key128-{n} -> h128-{n}")
            self.statement(f"cpu {n} encodekey256 key256-{n} -> h256-{n}")

    def load(self):
        random_data = self.some("", "", "", " random not-ready", f" random {self.hex(48)}")
        return f"loadiwkey iw{self.some(0, 1, 2)}{self.some('', '', '', ' no-backup')}{random_data}"

    def handle(self, size):
        names = [name for name in self.trace.names if name.startswith(f"h{size}") and self.trace.names[name]]
        return self.random.choice(names) if names else "00*64"

    def encode(self):
        size = self.some(128, 256)
        limits = " ".join(limit for limit in ["cpl0-only", "no-encrypt", "no-decrypt"] if self.random.random() < 0.2)
        return f"encodekey{size} key{size}-{self.some(0, 1, 2)} {limits}{self.some('', '', '', '', ' restrict 8')} -> h{size}-{self.random.randrange(6)}"

    def use(self):
        wide, size = self.some("", "", "wide"), self.some(128, 256)
        handle = self.handle(self.some(size, size, size, 128, 256))
        return f"aes{self.some('enc', 'dec')}{wide}{size}kl {handle} {self.hex(128 if wide else 16)}"

    def ctr(self):
        """Few blocks, often with a short end; the counter mostly about to carry; seldom a size that is refused."""
        size, length = self.some(128, 256), self.some(0, 0, 1, 16, 17, 17, self.random.randrange(200))
        carry = self.some(0, 4, 8, 12, 15, 15)
        counter = self.random.randbytes(carry) + b"\xff" * (15 - carry) + bytes([self.some(0xFF, 0xFE, self.random.randrange(256))])[: 16 - carry]
        handle = self.handle(size) if self.random.random() < 0.93 else self.some("00*48", "00*64", "00*47", "00*65")
        return f"ctr {handle} {counter.hex() + self.some(*[''] * 15, '00')} {self.hex(length) or 'empty'} -> counted"

    def again(self, processor, mnemonic):
        """The same use, of the handle that is still in its place: by RBX, whose bits 63:32 lead elsewhere without 67."""
        high = self.some(0, 1, 2**31, self.random.getrandbits(32))
        self.statement(f"cpu {processor} set rbx = {high << 32 | HANDLE_PLACE:#x}")
        opcode, reg = (0xD8, WIDE.index(mnemonic)) if mnemonic in WIDE else (OPCODES[mnemonic], 0)
        return f"cpu {processor} step {self.some('', '67 ', '67 ')}{bytes([0xF3, 0x0F, 0x38, opcode, 8 * reg | 3]).hex()}"

    def raw(self):
        string = bytes([0xF3, 0x0F, 0x38, self.some(0xDC, 0xDD, 0xD8, 0xFA), self.random.randrange(256)]) + self.random.randbytes(self.random.randrange(6))
        return f"step {self.some('', '67 ')}{string.hex()}"

    def idle(self):
        """An empty string; or one that is cut to its prefixes."""
        string = self.some("empty", "empty", "empty", "f0", "67", "f0 67", "f3")
        return f"step {string}{self.some('', '', ' random 00', f' random {self.hex(48)}')}"

    def backup(self):
        return self.some("write 0xD91 1", "write 0xD91 1", "write 0xD92 1", "write 0xD92 0", "write 0xD91 3", "read 0x990", "read 0x991", "read 0xD91")

    def cpuid(self):
        leaf, subleaf = self.some("7", "0x19", "0x19", str(self.random.getrandbits(32))), self.some("", " 0", " 1", f" {self.random.getrandbits(32)}")
        return f"cpuid {leaf}{subleaf}"

    def call(self):
        if self.random.random() < 0.18:
            return self.some("taken", "taken", "taken", "settle good", "settle bad", "settle 2", "sleep old", "sleep new", "sleep junk", "sleep 3")
        cpl = self.some("", "", "", "", " cpl 3")
        what = self.random.choices([self.load, self.encode, self.use, self.ctr, self.raw, self.idle, self.cpuid, self.backup], [3, 3, 8, 6, 2, 2, 2, 5])[0]
        return f"cpu {self.random.randrange(3) if self.random.random() < 0.98 else 3}{cpl} {what()}"

    def expectations(self, text):
        trace = self.trace
        yield f"expect refused {trace.number}" if trace.number else "expect done"
        if trace.zf is not None:
            yield f"expect zf {trace.zf}"
        if trace.zf == 0 and " ctr " in text:
            yield f"expect counted = {trace.names['counted'].hex() or '00*0'}"
        if trace.value is not None:
            yield f"expect value {trace.value}"
        if trace.cpuid_answer is not None:
            yield from (f"expect {register} {value}" for register, value in zip(CPUID_REGISTERS, trace.cpuid_answer))
        if text.startswith("cpu "):
            yield f"cpu {text.split()[1]} expect record = {trace.cpu.hex()}"
        yield f"expect machine = {trace.machine.hex()}"

    def run(self, count):
        self.begin()
        opened = None
        for _ in range(count):
            if self.random.random() < 0.1:
                self.statement(f"cpu {self.random.randrange(3)} set control = {self.some(3, 3, 3, 2)}")
            text = self.again(*opened) if opened else self.call()
            self.statement(text)
            used = [word for word in text.split() if word in USES]
            opened = (text.split()[1], used[0]) if used and self.trace.zf == 0 else None
            for expectation in list(self.expectations(text)):
                self.statement(expectation)


class RandomKeyrings(RandomStatements):
    """Calls on small keyrings: few labels, so that chains grow and labels come again, and now and then bytes that somebody else wrote."""

    def label(self):
        return (bytes([self.some(0x00, 0x50, 0x05, 0x0F, 0xFF), self.random.randrange(2)]) + bytes(10)).hex()

    def make(self):
        self.statement(f"keyring records {self.some(1, 2, 3, 4, 5, 6, 8, 40)}")

    def damage(self):
        """A byte of a head, of the fields of a record or behind them, altered or set to an index that is about there."""
        keyring = bytearray(self.trace.keyring)
        count = len(keyring) // model.RECORD
        at = self.random.choice([self.random.randrange(model.RECORD), model.RECORD * self.random.randrange(count) + self.random.randrange(5)])
        keyring[at] = self.random.choice([0, 1, 2, count - 1, count, self.random.randrange(256)]) % 256
        self.statement(f"keyring = {keyring.hex()}")

    def call(self):
        label, size = self.label(), self.random.choice([48, 64])
        if self.random.random() < 0.05:
            label, size = self.random.choice([(label, 47), (label, 65), (label[2:], size), (label + "00", size), ("00*0", size)])
        if self.random.random() < 0.4:
            return f"keyring lookup {label} -> found"
        return f"keyring add {label} {self.hex(size)}"

    def expectations(self):
        trace = self.trace
        yield f"expect refused {trace.number}" if trace.number else "expect done"
        if trace.kind is not None:
            yield f"expect kind {trace.kind}"
            yield f"expect found = {trace.names['found'].hex()}"
        yield f"expect keyring = {trace.keyring.hex()}"

    def run(self, count):
        self.make()
        for _ in range(count):
            if self.random.random() < 0.1:
                self.make()
            kept = self.trace.keyring
            if self.random.random() < 0.25:
                self.damage()
            self.statement(self.call())
            for expectation in list(self.expectations()):
                self.statement(expectation)
            if self.trace.number == 15:
                self.statement(f"keyring = {kept.hex()}")


def main(args):
    if not args:
        check_all()
    elif len(args) == 1 and not args[0].startswith("-"):
        check(args[0], Path(args[0]).read_text())
    elif len(args) == 2 and args[0] == "--found":
        print_found(Path(args[1]).read_text())
    elif len(args) == 3 and args[0] == "--random":
        RandomTrace(int(args[2])).run(int(args[1]))
    elif len(args) == 3 and args[0] == "--keyrings":
        RandomKeyrings(int(args[2])).run(int(args[1]))
    else:
        sys.exit(__doc__)


if __name__ == "__main__":
    main(sys.argv[1:])
