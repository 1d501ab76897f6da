#!/usr/bin/env python3
"""Calls of the emulated machine by name, and what the program scenarios has to write of them by the model of tests/model.py.

  scenarios.py                   write crates/scenarios/stdin and crates/scenarios/stdout
  scenarios.py --check           exit with 1 where one of these two files is something else
  scenarios.py --random N SEED   run crates/scenarios/out/scenarios on N random calls, and exit with 1 where it differs from the model

All three first hold the model to the numbers that the scope gives for its examples K1 to K12, and to what each attack is meant to show. Handles are
the model's: where the proved code encoded another one, the use that follows would fail.
"""

import random
import subprocess
import sys
from collections import Counter
from pathlib import Path

import decoder
import key_locker
import model
from model import BAD, COPY_IN, COPY_OUT, GOOD, JUNK, NEW, OLD, Cpu, IWKey, Machine, Refused

ROOT = Path(__file__).resolve().parent.parent
STDIN = ROOT / "crates/scenarios/stdin"
STDOUT = ROOT / "crates/scenarios/stdout"
PROGRAM = ROOT / "crates/scenarios/out/scenarios"

# How many characters the program reads.
STDIN_LIMIT = 196_608

# ---- the calls as lines, as crates/scenarios/src/call.rt has them

KINDS = ["power-on", "read", "write", "settle", "sleep", "reset", "step", "lend", "cpuid", "taken", "ctr"]


def with_zeros_short(block):
    """Hexadecimal digits, with '.' for sixteen zeros and ',' for eight."""
    text = ""
    while block:
        if block.startswith(bytes(16)):
            text, block = text + ".", block[16:]
        elif block.startswith(bytes(8)):
            text, block = text + ",", block[8:]
        else:
            text, block = text + block[:8].hex(), block[8:]
    return text


def stdin_line(name, kind, x=0, y=0, address=0, value=0, parts=()):
    """Each of parts goes into a place of its own; their lengths stand before them."""
    lengths = [len(part) for part, room in parts] if kind in ["step", "cpuid", "ctr"] else []
    lengths = "".join(f"{length:04x}" for length in lengths).ljust(16, "0")
    head = f"{KINDS.index(kind):02x}{x:02x}{y:02x}00 {address:08x} {value:016x} {lengths}"
    for part, room in parts:
        assert len(part) <= room
    rest = " ".join(with_zeros_short(part.ljust(room, b"\0")) for part, room in parts)
    return f"{name} {head} {rest}".rstrip(" .,")


def changes(what, old, new):
    """Groups of four bytes that changed, each run of them with the place where it begins."""
    text, after = what, None
    for at in range(0, len(new), 4):
        if old[at : at + 4] != new[at : at + 4]:
            text += new[at : at + 4].hex() if after == at else f" {at}:{new[at : at + 4].hex()}"
            after = at + 4
    return text


def words(buffer):
    """With zeros up to a multiple of four."""
    return buffer + bytes(-len(buffer) % 4)


class Script:
    """Calls on one machine, with the lines that go in and come out. Each call answers its number, 0 where it was not refused."""

    def __init__(self):
        self.machine = bytes(model.MACHINE_SIZE)
        self.cpu = None
        self.value = None
        self.registers = None
        self.buffer = None
        self.stdin = []
        self.stdout = []

    def line(self, name, kind, number, said, machine, **fields):
        assert " " not in name
        self.stdin.append(stdin_line(name, kind, **fields))
        number_said = "" if number is None else f" {number}"
        self.stdout.append(f"{name} {kind}{number_said}{said}{changes(' machine', self.machine, machine)}")
        self.machine = machine
        return number

    def plain(self, name, kind, call, **fields):
        """A call that answers the machine, or a value."""
        try:
            number, result = 0, call()
        except Refused as refused:
            # a refused power-on returns an all-zero machine
            number, result = refused.number, bytes(model.MACHINE_SIZE) if kind == "power-on" else self.machine
        self.value = result if kind == "read" and number == 0 else 0
        machine = self.machine if kind == "read" else result
        said = f" value {self.value}" if kind == "read" and number == 0 else ""
        return self.line(name, kind, number, said, machine, **fields)

    def power_on(self, name, count=16, features=model.ALL_FEATURES):
        return self.plain(name, "power-on", lambda: model.power_on(count, features), x=count, y=features)

    def read(self, name, processor, address, cpl=0):
        return self.plain(name, "read", lambda: model.read(self.machine, processor, cpl, address), x=processor, y=cpl, address=address)

    def write(self, name, processor, address, value=1, cpl=0):
        call = lambda: model.write(self.machine, processor, cpl, address, value)
        return self.plain(name, "write", call, x=processor, y=cpl, address=address, value=value)

    def settle(self, name, code):
        return self.plain(name, "settle", lambda: model.settle(self.machine, code), x=code)

    def sleep(self, name, code):
        return self.plain(name, "sleep", lambda: model.sleep(self.machine, code), x=code)

    def reset(self, name):
        return self.plain(name, "reset", lambda: model.reset(self.machine))

    def taken(self, name):
        return self.plain(name, "taken", lambda: model.taken(self.machine))

    def lend(self, name, record):
        """The record takes the machine's place; nothing is called."""
        self.line(name, "lend", None, "", record, parts=[(record, model.MACHINE_SIZE + 4)])

    def step(self, name, string, processor=0, cpu=None, memory=b"", random=b""):
        before = record() if cpu is None else cpu
        string = bytes.fromhex(string) if isinstance(string, str) else string
        try:
            machine, after = model.step(self.machine, processor, before, memory, random, string)
            self.cpu = Cpu(after)
            zf = self.cpu.rflags >> 6 & 1
            number, said = 0, f" zf {zf} xmm0 {self.cpu.xmm(0).hex()}{changes(' cpu', before, after)}"
        except Refused as refused:
            number, said, machine = refused.number, "", self.machine
            self.cpu = None
        parts = [(before, 416), (memory, 256), (random, 64), (string, 64)]
        return self.line(name, "step", number, said, machine, x=processor, parts=parts)

    def cpuid(self, name, leaf, subleaf=0, cpu=None):
        before = record() if cpu is None else cpu
        try:
            number, self.registers = 0, model.cpuid(self.machine, before, leaf, subleaf)
            said = "".join(f" {register} {value:08x}" for register, value in zip(["eax", "ebx", "ecx", "edx"], self.registers))
        except Refused as refused:
            number, self.registers, said = refused.number, None, ""
        return self.line(name, "cpuid", number, said, self.machine, address=leaf, value=subleaf, parts=[(before, 416)])

    def ctr(self, name, handle, buffer, counter=None, processor=0, cpu=None):
        """Of the buffer 200 bytes are given; behind them it has zeros."""
        before = record() if cpu is None else cpu
        counter = COUNTER if counter is None else counter
        try:
            after, self.buffer = model.ctr(self.machine, processor, before, handle, counter, buffer)
            self.cpu = Cpu(after)
            masked = changes(" buffer", words(buffer), words(self.buffer))
            number, said = 0, f" zf {self.cpu.rflags >> 6 & 1}{changes(' cpu', before, after)}{masked}"
        except Refused as refused:
            number, said = refused.number, ""
            self.cpu = self.buffer = None
        assert not any(buffer[200:])
        parts = [(before, 416), (handle, 256), (counter, 64), (buffer[:200], 200)]
        return self.line(name, "ctr", number, said, self.machine, x=processor, address=len(buffer), parts=parts)


# ---- pieces of scenarios

REGISTERS = ["rax", "rcx", "rdx", "rbx", "rsp", "rbp", "rsi", "rdi"] + [f"r{n}" for n in range(8, 16)]
CONTROL = model.CR4_KL | model.CR4_OSFXSR


def record(xmm=None, rip=0, rflags=0, cpl=0, control=CONTROL, **registers):
    """A CPU record; registers by their names."""
    cpu = Cpu()
    for n, block in (xmm or {}).items():
        cpu.set_xmm(n, block)
    for name, value in registers.items():
        cpu.set_register(REGISTERS.index(name), value)
    cpu.rip, cpu.rflags = rip, rflags
    cpu.bytes[400:402] = [cpl, control]
    return bytes(cpu.bytes)


def block(n):
    """Sixteen bytes, of which the first tells which they are."""
    return bytes((n + 29 * i) % 256 for i in range(16))


A = IWKey(integrity=block(0xA0), encryption=block(0xA1) + block(0xA2))
B = IWKey(integrity=block(0xB0), encryption=block(0xB1) + block(0xB2))
KEY_128 = block(1)
KEY_256 = block(2) + block(3)
PLAIN = block(4)
COUNTER = block(7)
DATA = b"".join(map(block, range(0x50, 0x5D)))[:200]

# Strings, with [rax] for the handle. Encodes: destination eax, source ecx. LOADIWKEY: SRC1 xmm2, SRC2 xmm1.
ENC_128, DEC_128, ENC_256, DEC_256 = (f"f3 0f 38 {opcode} 00" for opcode in ["dc", "dd", "de", "df"])
WIDE_ENC_128, WIDE_DEC_128, WIDE_ENC_256, WIDE_DEC_256 = (f"f3 0f 38 d8 {modrm}" for modrm in ["00", "08", "10", "18"])
ENCODE_128, ENCODE_256 = (f"f3 0f 38 {opcode} c1" for opcode in ["fa", "fb"])
LOAD = "f3 0f 38 dc d1"


def aad(key, bits=0):
    return bytes([bits, 0, 0, len(key) // 32]) + bytes(12)


def handle(iwkey, key, bits=0):
    return key_locker.wrap(iwkey.integrity, iwkey.encryption, aad(key, bits), key)


def load(script, name, iwkey, processor=0, eax=0, random=b""):
    xmm = {0: iwkey.integrity, 1: iwkey.encryption[:16], 2: iwkey.encryption[16:]}
    return script.step(name, LOAD, processor, record(xmm, rax=eax), random=random)


def encode(script, name, key, source=0, processor=0, cpl=0):
    xmm = {0: key[:16], 3: block(0x33), 4: block(0x34), 5: block(0x35), 6: block(0x36), 7: block(0x37)}
    if len(key) == 32:
        xmm[1] = key[16:]
    cpu = record(xmm, rax=2**64 - 1, rcx=source, cpl=cpl, rflags=2**64 - 1)
    return script.step(name, ENCODE_128 if len(key) == 16 else ENCODE_256, processor, cpu)


def use(script, name, string, memory, processor=0, cpl=0, xmm=None):
    return script.step(name, string, processor, record(xmm or {0: PLAIN}, cpl=cpl), memory)


def expect(name, found, wanted):
    if found != wanted:
        sys.exit(f"{name}: the model says {found!r}, and it should be {wanted!r}")


def expect_opened(script, name, xmm0):
    expect(name, (script.cpu.rflags & model.ZF, script.cpu.xmm(0)), (0, xmm0))


def expect_closed(script, name):
    """ZF 1, and all blocks as they were."""
    expect(name, (script.cpu.rflags & model.ZF, bytes(script.cpu.bytes[:256])), (model.ZF, PLAIN + bytes(240)))


def status(script, name, processor, wanted):
    script.read(name, processor, model.COPY_STATUS)
    expect(name, script.value, wanted)


def backup_status(script, name, wanted):
    script.read(name, 0, model.BACKUP_STATUS)
    expect(name, script.value, wanted)


# ---- the scope's examples


def k1_to_k7(s):
    h, h256 = handle(A, KEY_128), handle(A, KEY_256)
    expect("K1", use(s, "K1-memory-48", ENC_128, h), 0)
    expect_opened(s, "K1", key_locker.cipher(KEY_128, PLAIN))
    expect("K1", use(s, "K1-memory-47", ENC_128, h[:47]), 14)
    expect("K2", s.step("K2-ffd0", ENC_128, cpu=record(rax=0x7FFFFFFFFFD0), memory=h), 14)
    expect("K2", s.step("K2-ffd1", ENC_128, cpu=record(rax=0x7FFFFFFFFFD1), memory=h), 12)
    expect("K3", s.step("K3-rsp", "f3 0f 38 dc 04 24", cpu=record(rsp=0x7FFFFFFFFFD1), memory=h), 13)
    expect("K4", s.step("K4-d8-20", "f3 0f 38 d8 20", memory=h256), 8)
    blocks = {n: block(0x40 + n) for n in range(9)}
    expect("K4", use(s, "K4-wide-enc-256", WIDE_ENC_256, h256, xmm=blocks), 0)
    encrypted = {n: s.cpu.xmm(n) for n in range(9)}
    expect("K4", encrypted, {n: key_locker.cipher(KEY_256, block(0x40 + n)) for n in range(8)} | {8: block(0x48)})
    expect("K4", s.step("K4-d8-18", "f3 0f 38 d8 18", cpu=record(encrypted), memory=h256), 0)
    expect("K4", {n: s.cpu.xmm(n) for n in range(9)}, blocks)
    expect("K5", s.step("K5-dd-c0", "f3 0f 38 dd c0"), 8)
    k6 = "f3 44 0f 38 de 05 10 00 00 00"
    cpu = record(blocks)
    expect("K6", s.step("K6-address-26", k6, cpu=cpu, memory=bytes(26) + h256), 0)
    changed = [n for n in range(16) if s.cpu.xmm(n) != Cpu(cpu).xmm(n)]
    expect("K6", (changed, s.cpu.xmm(8)), ([8], key_locker.cipher(KEY_256, block(0x48))))
    expect("K6", s.step("K6-memory-89", k6, cpu=cpu, memory=(bytes(26) + h256)[:89]), 14)
    machine, cpu = s.machine, record(blocks, rip=0x1000, rflags=2**64 - 1)
    expect("K7", s.step("K7-empty", "", cpu=cpu), 0)
    expect("K7", (s.machine, bytes(s.cpu.bytes)), (machine, cpu))


def k8_to_k12(s):
    expect("K8", encode(s, "K8-source-7", KEY_128, 7), 0)
    expect("K8", s.cpu.xmm(0), bytes([7]) + bytes(15))
    expect("K8", encode(s, "K8-source-8", KEY_128, 8), 12)
    expect("K9", encode(s, "K9-source-1", KEY_256, 1), 0)
    expect("K9", s.cpu.xmm(0), bytes([1, 0, 0, 1]) + bytes(12))
    expect("K10", load(s, "K10-eax-4", B, eax=4, random=bytes(48)), 12)
    expect("K10", load(s, "K10-eax-3", B, eax=3, random=block(0xF0) + block(0xF1) + block(0xF2)), 0)
    key = model.machine_from(s.machine).keys[0]
    mixed = key_locker.xor(B.encryption + B.integrity, block(0xF0) + block(0xF1) + block(0xF2))
    expect("K10", key, IWKey(mixed[32:], mixed[:32], source=1, no_backup=1))
    expect("K11", encode(s, "K11-destination", KEY_128), 0)
    expect("K11", s.cpu.register(0), 3)
    expect("K12", load(s, "K12-processor-15", B, 15), 0)
    expect("K12", load(s, "K12-processor-16", B, 16), 3)


def examples(s):
    s.power_on("K-power-on")
    load(s, "K-load", A)
    k1_to_k7(s)
    k8_to_k12(s)


# ---- attacks: what must not work, beside what must


def stale_store(s):
    """The storage is still at work when the machine sleeps, and comes back with what it had before."""
    for name, code, key in [("stale-store", OLD, A), ("new-store", NEW, B)]:
        s.power_on(f"{name}-power-on", count=2)
        load(s, f"{name}-load-first", A)
        s.write(f"{name}-copy-out-first", 0, COPY_OUT)
        s.settle(f"{name}-settle", GOOD)
        load(s, f"{name}-load-second", B)
        s.write(f"{name}-copy-out-second", 0, COPY_OUT)
        s.sleep(f"{name}-sleep", code)
        s.write(f"{name}-copy-in", 0, COPY_IN)
        status(s, f"{name}-status", 0, 1)
        for which, iwkey in [("first", A), ("second", B)]:
            use(s, f"{name}-use-{which}", ENC_128, handle(iwkey, KEY_128))
            if iwkey == key:
                expect_opened(s, name, key_locker.cipher(KEY_128, PLAIN))
            else:
                expect_closed(s, name)


def no_store(s):
    """As above, where the storage had nothing."""
    s.power_on("no-store-power-on", count=2)
    load(s, "no-store-load", A)
    s.write("no-store-copy-out", 0, COPY_OUT)
    s.sleep("no-store-sleep", OLD)
    s.write("no-store-copy-in", 0, COPY_IN)
    status(s, "no-store-status", 0, 0)
    backup_status(s, "no-store-backup-status", 0)
    use(s, "no-store-use", ENC_128, handle(A, KEY_128))
    expect_closed(s, "no-store")


def second_copy_out(s):
    s.power_on("second-copy-out-power-on", count=2)
    load(s, "second-copy-out-load-0", A, 0)
    load(s, "second-copy-out-load-1", B, 1)
    s.write("second-copy-out-first", 0, COPY_OUT)
    s.write("second-copy-out-second", 1, COPY_OUT)
    status(s, "second-copy-out-status-0", 0, 1)
    status(s, "second-copy-out-status-1", 1, 0)
    expect("second-copy-out", model.machine_from(s.machine).backup, A)
    s.settle("second-copy-out-settle", GOOD)
    backup_status(s, "second-copy-out-backup-status", 0b1001)
    s.write("second-copy-out-third", 1, COPY_OUT)
    status(s, "second-copy-out-status-1", 1, 1)
    expect("second-copy-out", model.machine_from(s.machine).backup, B)


def taken_backup(s):
    """The platform has taken a second backup: a third one fails as before, and what becomes of the second is for settle and sleep to say, as before."""
    s.power_on("taken-power-on", count=2)
    load(s, "taken-load-first", A)
    s.write("taken-copy-out-first", 0, COPY_OUT)
    s.settle("taken-settle-first", GOOD)
    load(s, "taken-load-second", B)
    s.write("taken-copy-out-second", 0, COPY_OUT)
    expect("taken", s.taken("taken-taken"), 0)
    backup_status(s, "taken-backup-status", 0b1000)
    s.write("taken-copy-out-third", 1, COPY_OUT)
    status(s, "taken-status-third", 1, 0)
    backup_status(s, "taken-backup-status-third", 0b1000)
    snapshot = s.machine
    for name, call, wanted, backup, store in [
        ("settle-good", lambda name: s.settle(name, GOOD), 0b1001, B, B),
        ("settle-bad", lambda name: s.settle(name, BAD), 0b1100, B, None),
        ("sleep-old", lambda name: s.sleep(name, OLD), 0b0001, A, A),
        ("sleep-new", lambda name: s.sleep(name, NEW), 0b0001, B, B),
        ("sleep-junk", lambda name: s.sleep(name, JUNK), 0b0100, None, None),
        ("reset", lambda name: s.reset(name), 0, None, None),
    ]:
        s.lend(f"taken-{name}-lend", snapshot)
        expect(f"taken-{name}", call(f"taken-{name}"), 0)
        backup_status(s, f"taken-{name}-backup-status", wanted)
        after = model.machine_from(s.machine)
        expect(f"taken-{name}", (after.backup, after.store, after.pending), (backup, store, 0))


def junk_wake(s):
    s.power_on("junk-wake-power-on", count=2)
    load(s, "junk-wake-load", A)
    s.write("junk-wake-copy-out", 0, COPY_OUT)
    s.settle("junk-wake-settle", GOOD)
    s.sleep("junk-wake-sleep", JUNK)
    s.write("junk-wake-copy-in", 0, COPY_IN)
    status(s, "junk-wake-status", 0, 0)
    backup_status(s, "junk-wake-backup-status", 0b100)
    use(s, "junk-wake-use", ENC_128, handle(A, KEY_128))
    expect_closed(s, "junk-wake")


def bad_settle(s):
    """The copy in the backup still works, and is gone after a sleep."""
    s.power_on("bad-settle-power-on", count=2)
    load(s, "bad-settle-load", A)
    s.write("bad-settle-copy-out", 0, COPY_OUT)
    s.settle("bad-settle-settle", BAD)
    backup_status(s, "bad-settle-backup-status", 0b1100)
    s.write("bad-settle-copy-in", 1, COPY_IN)
    status(s, "bad-settle-status", 1, 1)
    s.sleep("bad-settle-sleep", NEW)
    backup_status(s, "bad-settle-backup-status", 0)
    s.write("bad-settle-copy-in", 1, COPY_IN)
    status(s, "bad-settle-status", 1, 0)


def no_backup(s):
    s.power_on("no-backup-power-on", count=2)
    load(s, "no-backup-load", A, eax=1)
    s.write("no-backup-copy-out", 0, COPY_OUT)
    status(s, "no-backup-status", 0, 0)
    expect("no-backup", model.machine_from(s.machine).backup, None)
    encode(s, "no-backup-encode", KEY_128)
    expect("no-backup", s.cpu.register(0), 1)
    load(s, "no-backup-random", A, eax=2, random=block(0xF0) * 3)
    encode(s, "no-backup-random-encode", KEY_256)
    expect("no-backup", s.cpu.register(0), 2)


def damaged_handle(s):
    """One byte of each part, and the whole handle after them."""
    s.power_on("damaged-power-on", count=2)
    load(s, "damaged-load", A)
    h = handle(A, KEY_128)
    for at in [0, 1, 3, 15, 16, 31, 32, 47]:
        damaged = h[:at] + bytes([h[at] ^ 0x10]) + h[at + 1 :]
        use(s, f"damaged-byte-{at}", ENC_128, damaged)
        expect_closed(s, "damaged")
    use(s, "damaged-none", ENC_128, h)
    expect_opened(s, "damaged", key_locker.cipher(KEY_128, PLAIN))


def forged_handle(s):
    """Authentic under the IWKey, with an AAD that no encode gives."""
    h = handle(A, KEY_128)
    for bit in [3, 23, 24, 27, 28, 127]:
        bits = (1 << bit).to_bytes(16, "little")
        use(s, f"forged-bit-{bit}", ENC_128, key_locker.wrap(A.integrity, A.encryption, bits, KEY_128))
        expect_closed(s, "forged")
    use(s, "forged-256-over-128", ENC_256, h + bytes(16))
    expect_closed(s, "forged")
    use(s, "forged-128-over-256", ENC_128, handle(A, KEY_256)[:48])
    expect_closed(s, "forged")


def other_processor(s):
    s.power_on("other-processor-power-on", count=2)
    load(s, "other-processor-load-0", A, 0)
    load(s, "other-processor-load-1", B, 1)
    h = handle(A, KEY_256)
    encode(s, "other-processor-encode", KEY_256)
    expect("other-processor", bytes(s.cpu.bytes[:64]), h)
    use(s, "other-processor-before", DEC_256, h, processor=1)
    expect_closed(s, "other-processor")
    s.write("other-processor-copy-out", 0, COPY_OUT)
    s.write("other-processor-copy-in", 1, COPY_IN)
    use(s, "other-processor-after", DEC_256, h, processor=1)
    expect_opened(s, "other-processor", key_locker.inv_cipher(KEY_256, PLAIN))


def privilege(s):
    """A job of CPL 3 may encode a handle for CPL 0, and cannot use it."""
    s.power_on("privilege-power-on", count=2)
    load(s, "privilege-load", A)
    h = handle(A, KEY_128, 1)
    expect("privilege", encode(s, "privilege-encode", KEY_128, 1, cpl=3), 0)
    expect("privilege", bytes(s.cpu.bytes[:48]), h)
    for cpl in range(4):
        use(s, f"privilege-cpl-{cpl}", ENC_128, h, cpl=cpl)
        if cpl == 0:
            expect_opened(s, "privilege", key_locker.cipher(KEY_128, PLAIN))
        else:
            expect_closed(s, "privilege")


def direction(s):
    for bits, what in [(2, "no-encryption"), (4, "no-decryption")]:
        h, h256 = handle(A, KEY_128, bits), handle(A, KEY_256, bits)
        for encrypts, strings in [(1, (ENC_128, ENC_256, WIDE_ENC_128, WIDE_ENC_256)), (0, (DEC_128, DEC_256, WIDE_DEC_128, WIDE_DEC_256))]:
            for form, string, memory in zip(["128", "256", "wide-128", "wide-256"], strings, [h, h256, h, h256]):
                use(s, f"{what}-{'enc' if encrypts else 'dec'}-{form}", string, memory)
                if (bits == 2) == bool(encrypts):
                    expect_closed(s, what)
                else:
                    aes = key_locker.cipher if encrypts else key_locker.inv_cipher
                    expect_opened(s, what, aes(KEY_128 if memory is h else KEY_256, PLAIN))


def not_ready(s):
    expect("not-ready", load(s, "not-ready-load", B, eax=2), 0)
    expect("not-ready", (s.cpu.rflags, model.machine_from(s.machine).keys[0]), (model.ZF, A))
    use(s, "not-ready-use", ENC_128, handle(A, KEY_128))
    expect_opened(s, "not-ready", key_locker.cipher(KEY_128, PLAIN))


def zero_integrity_key(s):
    """All handles have one tag: a damaged one opens, to another key."""
    s.power_on("zero-key-power-on", count=2)
    h = handle(model.NO_KEY, KEY_128)
    # the numbers of 343965-001US, chapter 6, as bytes
    encode(s, "zero-key-encode", bytes(16))
    tag, ciphertext = 0x8720849214A248AD_898940A278C095DC, 0xD3E9D22B334FB3C2_3382228C8474C308
    wanted = bytes(16) + tag.to_bytes(16, "little") + ciphertext.to_bytes(16, "little")
    expect("zero-key", bytes(s.cpu.bytes[:48]), wanted)
    use(s, "zero-key-damaged", ENC_128, h[:47] + bytes([h[47] ^ 1]))
    expect_opened(s, "zero-key", key_locker.cipher(KEY_128[:15] + bytes([KEY_128[15] ^ 1]), PLAIN))


def counter_wraps(s):
    """A tag whose counter has no successor: the second keystream block is that of counter 0."""
    high = block(5)
    tag = bytes([255] * 4) + block(6)[4:]
    while (key := key_locker.key_with_tag(A.integrity, A.encryption, aad(high + high), high, tag)) is None:
        tag = tag[:15] + bytes([tag[15] + 1])
    load(s, "counter-wraps-load", A)
    encode(s, "counter-wraps-encode", key)
    expect("counter-wraps", bytes(s.cpu.bytes[16:32]), tag)
    use(s, "counter-wraps-use", ENC_256, handle(A, key))
    expect_opened(s, "counter-wraps", key_locker.cipher(key, PLAIN))


def attacks(s):
    stale_store(s)
    no_store(s)
    second_copy_out(s)
    taken_backup(s)
    junk_wake(s)
    bad_settle(s)
    no_backup(s)
    damaged_handle(s)
    forged_handle(s)
    other_processor(s)
    privilege(s)
    direction(s)
    not_ready(s)
    zero_integrity_key(s)
    counter_wraps(s)


# ---- operands: the handle at 40, and in the registers what leads there


def operands(s):
    memory = block(7) * 2 + bytes(8) + handle(A, KEY_128)
    s.power_on("operands-power-on", count=2)
    load(s, "operands-load", A)
    for name, string, registers in [
        ("disp8-negative", "f3 0f 38 dc 40 f8", dict(rax=48)),
        ("disp32", "f3 0f 38 dc 80 08 00 00 00", dict(rax=32)),
        ("disp32-negative", "f3 0f 38 dc 80 00 ff ff ff", dict(rax=0x128)),
        ("index-scaled", "f3 0f 38 dc 04 c8", dict(rax=16, rcx=3)),
        ("index-none", "f3 0f 38 dc 04 60", dict(rax=40, rsp=1)),
        ("index-r12", "f3 42 0f 38 dc 04 20", dict(r12=40)),
        ("index-r12-scaled", "f3 42 0f 38 dc 04 e0", dict(rax=8, r12=4)),
        ("index-alone", "f3 0f 38 dc 04 4d 20 00 00 00", dict(rcx=4, rbp=1)),
        ("base-none", "f3 0f 38 dc 04 25 28 00 00 00", dict(rsp=1, rbp=1)),
        ("base-none-rex-b", "f3 41 0f 38 dc 04 25 28 00 00 00", dict(r12=1, r13=1)),
        ("base-r12", "f3 41 0f 38 dc 04 24", dict(r12=40)),
        ("base-r13", "f3 41 0f 38 dc 45 00", dict(r13=40)),
        ("base-rbp", "f3 0f 38 dc 45 00", dict(rbp=40)),
        ("base-rbp-sib-disp8", "f3 0f 38 dc 44 4d fc", dict(rbp=24, rcx=10)),
        ("base-rbp-sib-disp32", "f3 0f 38 dc 84 4d fc ff ff ff", dict(rbp=24, rcx=10)),
        ("base-rsp", "f3 0f 38 dc 44 24 08", dict(rsp=32)),
        ("rip-negative", "f3 0f 38 dc 05 d8 ff ff ff", dict(rip=71)),
        ("rip-2-31", "f3 0f 38 dc 05 1f 00 00 80", dict(rip=2**31)),
        ("rip-rex-b", "f3 41 0f 38 dc 05 d8 ff ff ff", dict(rip=70, r13=1)),
        ("over-2-64", "f3 0f 38 dc 40 30", dict(rax=2**64 - 8)),
        ("rex-w", "f3 48 0f 38 dc 00", dict(rax=40)),
        ("rex-w-sib", "f3 48 0f 38 dc 04 c8", dict(rax=16, rcx=3)),
        ("rip-wraps", "f3 0f 38 dc 00 f3 0f", dict(rax=40, rip=2**64 - 1)),
        ("wide-rex-r", "f3 44 0f 38 d8 00", dict(rax=40)),
    ]:
        expect(name, s.step(f"operands-{name}", string, cpu=record({0: PLAIN}, **registers), memory=memory), 0)
        expect_opened(s, name, key_locker.cipher(KEY_128, PLAIN))
    blocks = {n: block(0x40 + n) for n in range(9)}
    expect("wide-dec-128", s.step("operands-wide-dec-128", "f3 0f 38 d8 08", cpu=record(blocks, rax=40), memory=memory), 0)
    wanted = {n: key_locker.inv_cipher(KEY_128, blocks[n]) for n in range(8)} | {8: blocks[8]}
    expect("wide-dec-128", {n: s.cpu.xmm(n) for n in range(9)}, wanted)
    expect("xmm15", s.step("operands-xmm15", "f3 44 0f 38 dc 38", cpu=record({15: PLAIN}, rax=40), memory=memory), 0)
    expect("xmm15", s.cpu.xmm(15), key_locker.cipher(KEY_128, PLAIN))
    xmm = {0: B.integrity, 9: B.encryption[:16], 10: B.encryption[16:]}
    s.step("operands-load-xmm10-xmm9", "f3 45 0f 38 dc d1", 1, cpu=record(xmm))
    expect("load-xmm10-xmm9", model.machine_from(s.machine).keys[1], B)
    s.step("operands-encode-r9d-r8d", "f3 45 0f 38 fa c8", 1, cpu=record({0: KEY_128}, r8=6, r9=2**64 - 1))
    expect("encode-r9d-r8d", (bytes(s.cpu.bytes[:48]), s.cpu.register(9)), (handle(B, KEY_128, 6), 0))


# ---- the prefix 67: addresses modulo 2^32, and where in a string it may stand


def address_size_wraps(s):
    """The handle is at 0, where these lead with 67; without it they are refused."""
    h = handle(A, KEY_128)
    for name, string, registers, without in [
        ("rax-2-32", ENC_128, dict(rax=0x100000000), 14),
        ("rax-2-63", ENC_128, dict(rax=0x8000000000000000), 12),
        ("disp8", "f3 0f 38 dc 40 10", dict(rax=0xFFFFFFF0), 14),
        ("disp8-negative", "f3 0f 38 dc 40 f0", dict(rax=0x8000_0000_0010), 12),
        ("disp32-negative", "f3 0f 38 dc 80 00 00 00 80", dict(rax=0x1_8000_0000), 14),
        ("disp32-below-0", "f3 0f 38 dc 80 00 00 00 80", dict(rax=0x8000_0000_8000_0000), 12),
        ("index", "f3 0f 38 dc 04 08", dict(rax=0xFFFF_FFF8, rcx=0xFFFF_0000_0000_0008), 12),
        ("index-scaled", "f3 0f 38 dc 04 c8", dict(rcx=0x2000_0000), 14),
        ("index-alone", "f3 0f 38 dc 04 4d f0 ff ff ff", dict(rcx=0x7FFF_0000_0008, rbp=1), 12),
        ("r13-r12", "f3 43 0f 38 dc 44 65 f8", dict(r13=0x0123_4567_FFFF_FFFE, r12=0x89AB_CDEF_0000_0005), 12),
        ("rsp", "f3 0f 38 dc 04 24", dict(rsp=2**63), 13),
        ("rbp", "f3 0f 38 dc 45 00", dict(rbp=2**47), 13),
        ("rex-w", "f3 48 0f 38 dc 00", dict(rax=2**32), 14),
        ("wide", WIDE_ENC_128, dict(rax=2**63), 12),
    ]:
        cpu = record({0: PLAIN}, **registers)
        expect(f"67-{name}", s.step(f"67-{name}-without", string, cpu=cpu, memory=h), without)
        expect(f"67-{name}", s.step(f"67-{name}", "67" + string, cpu=cpu, memory=h), 0)
        expect_opened(s, f"67-{name}", key_locker.cipher(KEY_128, PLAIN))


def address_size_places(s):
    """Places relative to EIP count from behind the prefix too; K2 and K3 are outside memory now, and not canonical faults."""
    h, h256 = handle(A, KEY_128), handle(A, KEY_256)
    k6 = "67 f3 44 0f 38 de 05 10 00 00 00"
    eip = "67 f3 0f 38 dc 05 1e 00 00 00"
    absolute = "67 f3 0f 38 dc 04 25"
    for number, name, string, registers, memory in [
        (14, "K2-ffd0", "67" + ENC_128, dict(rax=0x7FFFFFFFFFD0), h),
        (14, "K2-ffd1", "67" + ENC_128, dict(rax=0x7FFFFFFFFFD1), h),
        (14, "K3-rsp", "67 f3 0f 38 dc 04 24", dict(rsp=0x7FFFFFFFFFD1), h),
        (0, "K6-address-27", k6, {}, bytes(27) + h256),
        (14, "K6-memory-90", k6, {}, bytes(26) + h256),
        (0, "eip-2-32", eip, dict(rip=2**32), bytes(40) + h),
        (0, "eip-2-63", eip, dict(rip=2**63), bytes(40) + h),
        (0, "eip-wraps", eip, dict(rip=2**64 - 20), bytes(20) + h),
        (0, "absolute", absolute + "08 00 00 00", dict(rsp=1, rbp=1), bytes(8) + h),
        (14, "absolute-negative", absolute + "f0 ff ff ff", {}, h),
        (0, "memory-49", "67" + ENC_128, dict(rax=0x1_0000_0001), bytes(1) + h),
        (14, "memory-48", "67" + ENC_128, dict(rax=0x1_0000_0001), h),
        (14, "rax-2-16", "67" + ENC_128, dict(rax=2**16), h),
        (14, "rax-2-31", "67" + ENC_128, dict(rax=2**31), h),
        (14, "over-2-32", "67" + ENC_128, dict(rax=2**32 - 8), bytes(64)),
    ]:
        cpu = record({0: PLAIN, 8: PLAIN}, **registers)
        expect(f"67-{name}", s.step(f"67-{name}", string, cpu=cpu, memory=memory), number)
        if number == 0:
            key, n = (KEY_256, 8) if string == k6 else (KEY_128, 0)
            expect(f"67-{name}", (s.cpu.rflags & model.ZF, s.cpu.xmm(n)), (0, key_locker.cipher(key, PLAIN)))


def address_size_loads(s):
    """Before an instruction without a place 67 only counts in the length; RIP keeps its 64 bits."""
    xmm = {0: B.integrity, 1: B.encryption[:16], 2: B.encryption[16:]}
    for before, after in [(0, 6), (0xFFFF_FFFF, 0x1_0000_0005), (2**64 - 1, 5)]:
        name = f"67-load-rip-{before:x}"
        expect(name, s.step(name, "67" + LOAD, 1, cpu=record(xmm, rip=before)), 0)
        expect(name, (s.cpu.rip, model.machine_from(s.machine).keys[1]), (after, B))


def address_size_encodes(s):
    """The same for encodes, on the processor that has B from the loads."""
    for string, key in [(ENCODE_128, KEY_128), (ENCODE_256, KEY_256)]:
        name = f"67-encode-{8 * len(key)}"
        cpu = record({0: key[:16], 1: key[16:].ljust(16, b"\0")}, rax=2**64 - 1, rcx=2**32 + 6)
        expect(name, s.step(name, "67" + string, 1, cpu=cpu), 0)
        expect(name, (s.cpu.rip, s.cpu.register(0), bytes(s.cpu.bytes[: 32 + len(key)])), (6, 0, handle(B, key, 6)))


def address_size_refusals(s):
    """67 stands between LOCK and F3, once; then the refusals of the same string without it."""
    ts = CONTROL | model.CR0_TS
    for number, name, string, cpu in [
        (8, "before-lock", "67 f0" + ENC_128, record(control=0)),
        (8, "before-lock-load", "67 f0" + LOAD, record()),
        (8, "twice", "67 67" + ENC_128, record()),
        (8, "twice-encode", "67 67" + ENCODE_128, record()),
        (8, "twice-lock", "f0 67 67" + ENC_128, record()),
        (8, "behind-f3", "f3 67 0f 38 dc 00", record()),
        (8, "behind-f3-load", "f3 67 0f 38 dc d1", record()),
        (8, "behind-rex", "f3 48 67 0f 38 dc 00", record()),
        (8, "behind-rex-encode", "f3 41 67 0f 38 fa c1", record()),
        (8, "without-f3", "67 0f 38 dc 00", record()),
        (8, "byte-bad", "67 f3 0f 38 db", record()),
        (9, "alone", "67", record(control=0)),
        (9, "lock-alone", "f0 67", record(control=0)),
        (9, "string-short", "67 f3 0f 38 dc", record(control=0)),
        (10, "lock", "f0 67" + ENC_128, record(control=ts)),
        (10, "lock-load", "f0 67" + LOAD, record(cpl=3)),
        (10, "lock-encode", "f0 67" + ENCODE_128, record(rcx=8)),
        (10, "cr4-kl", "67" + ENC_128, record(control=ts & ~model.CR4_KL)),
        (11, "ts", "67" + ENC_128, record(control=ts)),
        (12, "load-cpl-1", "67" + LOAD, record(cpl=1)),
        (12, "encode-bit-31", "67" + ENCODE_256, record(rcx=2**31)),
    ]:
        expect(f"67-{name}", s.step(f"67-{name}", string, cpu=cpu), number)


def address_size(s):
    s.power_on("67-power-on", count=2)
    load(s, "67-load", A)
    address_size_wraps(s)
    address_size_places(s)
    address_size_loads(s)
    address_size_encodes(s)
    address_size_refusals(s)


# ---- values: what registers, flags and records hold after a call, as the scope has it


def backup_statuses(s):
    """0x991: valid 1, error 4, consumed 8."""
    s.power_on("backup-status-power-on", count=2)
    backup_status(s, "backup-status-power-on", 0)
    for name, call, wanted in [
        ("taken-none", lambda name: s.taken(name), 0),
        ("copy-out", lambda name: s.write(name, 0, COPY_OUT), 0),
        ("settle-good", lambda name: s.settle(name, GOOD), 9),
        ("taken-settled", lambda name: s.taken(name), 9),
        ("copy-out-again", lambda name: s.write(name, 0, COPY_OUT), 0),
        ("wake-old", lambda name: s.sleep(name, OLD), 1),
        ("copy-out-third", lambda name: s.write(name, 0, COPY_OUT), 0),
        ("wake-new", lambda name: s.sleep(name, NEW), 1),
        ("taken-woken", lambda name: s.taken(name), 1),
        ("wake-junk", lambda name: s.sleep(name, JUNK), 4),
        ("taken-junk", lambda name: s.taken(name), 4),
        ("copy-out-fourth", lambda name: s.write(name, 0, COPY_OUT), 0),
        ("taken", lambda name: s.taken(name), 8),
        ("taken-again", lambda name: s.taken(name), 8),
        ("settle-bad", lambda name: s.settle(name, BAD), 12),
        ("copy-out-fifth", lambda name: s.write(name, 0, COPY_OUT), 0),
        ("taken-fifth", lambda name: s.taken(name), 8),
        ("reset", lambda name: s.reset(name), 0),
    ]:
        expect(f"backup-status-{name}", call(f"backup-status-{name}"), 0)
        backup_status(s, f"backup-status-after-{name}", wanted)


def copy_statuses(s):
    """0x990 of processors 0 and 1."""
    s.power_on("copy-status-power-on", count=2)
    for name, call, wanted in [
        ("copy-in-none", lambda name: s.write(name, 0, COPY_IN), [0, 0]),
        ("copy-out", lambda name: s.write(name, 0, COPY_OUT), [1, 0]),
        ("copy-in", lambda name: s.write(name, 1, COPY_IN), [1, 1]),
        ("copy-out-pending", lambda name: s.write(name, 0, COPY_OUT), [0, 1]),
        ("sleep", lambda name: s.sleep(name, NEW), [0, 0]),
    ]:
        expect(f"copy-status-{name}", call(f"copy-status-{name}"), 0)
        for processor in [0, 1]:
            status(s, f"copy-status-after-{name}-{processor}", processor, wanted[processor])


def flags(s):
    """All 64 bits of RFLAGS set before: the six flags are written, the others kept."""
    s.power_on("flags-power-on", count=1)
    iwkey = {0: A.integrity, 1: A.encryption[:16], 2: A.encryption[16:]}
    h = handle(A, KEY_128)
    for name, string, xmm, eax, memory, wanted in [
        ("load", LOAD, iwkey, 0, b"", 0xFFFF_FFFF_FFFF_F72A),
        ("load-not-ready", LOAD, iwkey, 2, b"", 0xFFFF_FFFF_FFFF_F76A),
        ("encode-128", ENCODE_128, {}, 0, b"", 0xFFFF_FFFF_FFFF_F72A),
        ("encode-256", ENCODE_256, {}, 0, b"", 0xFFFF_FFFF_FFFF_F72A),
        ("use", ENC_128, {}, 0, h, 0xFFFF_FFFF_FFFF_F72A),
        ("use-closed", ENC_128, {}, 0, h[:47] + bytes(1), 0xFFFF_FFFF_FFFF_F76A),
        ("use-illegal", DEC_256, {}, 0, h + bytes(16), 0xFFFF_FFFF_FFFF_F76A),
        ("wide", WIDE_DEC_128, {}, 0, h, 0xFFFF_FFFF_FFFF_F72A),
        ("wide-closed", WIDE_DEC_128, {}, 0, bytes(48), 0xFFFF_FFFF_FFFF_F76A),
    ]:
        cpu = record(xmm, rax=eax, rflags=2**64 - 1)
        expect(f"flags-{name}", s.step(f"flags-{name}", string, cpu=cpu, memory=memory), 0)
        expect(f"flags-{name}", s.cpu.rflags, wanted)


def rip(s):
    for name, string, before, after in [
        ("2-32", ENCODE_128, 0xFFFF_FFFF, 0x1_0000_0004),
        ("2-64", LOAD, 0xFFFF_FFFF_FFFF_FFFF, 4),
        ("not-canonical", ENCODE_256, 0x8000_0000_0000_0000, 0x8000_0000_0000_0005),
    ]:
        expect(f"rip-{name}", s.step(f"rip-{name}", string, cpu=record(rip=before)), 0)
        expect(f"rip-{name}", s.cpu.rip, after)


def idle_step(s, name, processor=0, memory=b"", random=b"", **fields):
    """An empty string, with RIP and flags that an instruction would not leave: nothing changes."""
    machine, cpu = s.machine, record({0: PLAIN}, rip=2**64 - 1, rflags=2**64 - 1, **fields)
    expect(name, s.step(name, "", processor, cpu, memory, random), 0)
    expect(name, (s.machine, bytes(s.cpu.bytes)), (machine, cpu))


def idle(s):
    """Whatever is off, at any CPL; and in a list, between loads, copies and uses."""
    for name, off, control in [
        ("kl-off", model.KL, CONTROL),
        ("firmware-off", model.FIRMWARE, CONTROL),
        ("all-off", model.ALL_FEATURES, 0),
        ("cr4-kl-off", 0, CONTROL & ~model.CR4_KL),
        ("osfxsr-off", 0, CONTROL & ~model.CR4_OSFXSR),
        ("em", 0, CONTROL | model.CR0_EM),
        ("ts", 0, CONTROL | model.CR0_TS),
    ]:
        s.power_on(f"idle-{name}-power-on", count=2, features=model.ALL_FEATURES & ~off)
        idle_step(s, f"idle-{name}", control=control)
    for cpl in range(1, 4):
        idle_step(s, f"idle-cpl-{cpl}", cpl=cpl)
    h = handle(A, KEY_128)
    load(s, "idle-load", A)
    idle_step(s, "idle-loaded", random=block(0xF0) * 3)
    use(s, "idle-loaded-use", ENC_128, h)
    expect_opened(s, "idle-loaded", key_locker.cipher(KEY_128, PLAIN))
    s.write("idle-copy-out", 0, COPY_OUT)
    idle_step(s, "idle-pending", 1, memory=h)
    s.write("idle-copy-in", 1, COPY_IN)
    idle_step(s, "idle-copied-in", 1, memory=h, cpl=3)
    use(s, "idle-copied-in-use", ENC_128, h, processor=1)
    expect_opened(s, "idle-copied-in", key_locker.cipher(KEY_128, PLAIN))


def encode_registers(s):
    """XMM4 to XMM6 become zero, XMM3 only where the handle reaches it, and no other register changes; the whole destination is written."""
    s.power_on("encode-power-on", count=1)
    for key, wanted in [
        (KEY_128, handle(model.NO_KEY, KEY_128) + block(0x33) + bytes(48) + block(0x37)),
        (KEY_256, handle(model.NO_KEY, KEY_256) + bytes(48) + block(0x37)),
    ]:
        name = f"encode-{8 * len(key)}"
        expect(name, encode(s, name, key), 0)
        expect(name, (bytes(s.cpu.bytes[:256]), s.cpu.register(0)), (wanted + bytes(128), 0))


def whole_record(s):
    """A machine whose keys have no two bytes alike, against the scope's order of its 924 bytes."""

    def key(first):
        return bytes(range(first, first + 48))

    def load_key(name, first, processor=0, **fields):
        load(s, name, IWKey(key(first)[:16], key(first)[16:]), processor, **fields)

    s.power_on("record-power-on", count=2, features=0x3F)
    load_key("record-load-store", 0xA0)
    s.write("record-copy-out-store", 0, COPY_OUT)
    s.settle("record-settle", GOOD)
    load_key("record-load-backup", 0x70)
    s.write("record-copy-out-backup", 0, COPY_OUT)
    load_key("record-load-0", 0x10)
    load_key("record-load-1", 0x40, 1, eax=3, random=bytes(48))
    count_and_features = bytes([2, 0x3F])
    entries = key(0x10) + bytes([0, 0, 1]) + key(0x40) + bytes([1, 1, 0]) + bytes(14 * 51)
    backup = bytes([1]) + key(0x70) + bytes([0, 0])
    store = bytes([1]) + key(0xA0) + bytes([0, 0])
    wanted = count_and_features + entries + backup + store + bytes([1, 0, 0, 0])
    expect("record", s.machine, wanted)
    s.lend("record-alike", wanted)
    expect("record", s.stdout[-1], "record-alike lend machine")
    for name, call, bits in [
        ("settle-good", lambda name: s.settle(name, GOOD), [0, 1, 0, 1]),
        ("wake-old", lambda name: s.sleep(name, OLD), [0, 1, 0, 0]),
        ("copy-out", lambda name: s.write(name, 0, COPY_OUT), [1, 0, 0, 0]),
        ("taken", lambda name: s.taken(name), [1, 0, 0, 1]),
        ("settle-bad", lambda name: s.settle(name, BAD), [0, 0, 1, 1]),
        ("wake-junk", lambda name: s.sleep(name, JUNK), [0, 0, 1, 0]),
    ]:
        expect(f"record-{name}", call(f"record-{name}"), 0)
        expect(f"record-{name}", list(s.machine[920:]), bits)


def cpuid_features(s):
    """Leaves 7 and 0x19: all features, and fewer, with CR4.KL on and off."""
    kl, zero = (0, 0, 1 << 23, 0), (0, 0, 0, 0)
    no_cr4_kl = CONTROL & ~model.CR4_KL
    for name, features, control, leaf_7, leaf_19 in [
        ("all", 0b111111, CONTROL, kl, (7, 0b10101, 3, 0)),
        ("cr4-kl-off", 0b111111, no_cr4_kl, kl, (7, 0b10100, 3, 0)),
        ("cr4-kl-alone", 0b111111, model.CR4_KL, kl, (7, 0b10101, 3, 0)),
        ("all-but-cr4-kl", 0b111111, 14, kl, (7, 0b10100, 3, 0)),
        ("firmware-off", 0b111101, CONTROL, kl, (7, 0b10100, 3, 0)),
        ("kl-off", 0b111110, CONTROL, zero, zero),
        ("none", 0, CONTROL, zero, zero),
        ("kl", 0b000001, CONTROL, kl, (7, 0, 0, 0)),
        ("firmware", 0b000011, CONTROL, kl, (7, 1, 0, 0)),
        ("firmware-cr4-kl-off", 0b000011, no_cr4_kl, kl, (7, 0, 0, 0)),
        ("wide", 0b000101, CONTROL, kl, (7, 0b100, 0, 0)),
        ("backup", 0b001001, CONTROL, kl, (7, 0b10000, 0, 0)),
        ("no-backup", 0b010001, CONTROL, kl, (7, 0, 0b01, 0)),
        ("random", 0b100001, CONTROL, kl, (7, 0, 0b10, 0)),
    ]:
        s.power_on(f"cpuid-{name}-power-on", count=1, features=features)
        for leaf, wanted in [(7, leaf_7), (0x19, leaf_19)]:
            expect(f"cpuid-{name}", s.cpuid(f"cpuid-{name}-{leaf:x}", leaf, cpu=record(control=control)), 0)
            expect(f"cpuid-{name}", s.registers, wanted)


def cpuid_leaves(s):
    """The subleaf counts for leaf 7 only, and the CPL not at all; other leaves are zero."""
    s.power_on("cpuid-leaves-power-on", count=1)
    leaf_19, zero = (7, 0b10101, 3, 0), (0, 0, 0, 0)
    for leaf, subleaf, cpl, wanted in [
        (7, 0, 3, (0, 0, 1 << 23, 0)),
        (7, 1, 0, zero),
        (7, 2**31, 0, zero),
        (7, 2**32 - 1, 0, zero),
        (0x19, 0, 1, leaf_19),
        (0x19, 1, 2, leaf_19),
        (0x19, 2**32 - 1, 3, leaf_19),
        (0, 0, 0, zero),
        (6, 0, 0, zero),
        (8, 0, 0, zero),
        (0x18, 0, 0, zero),
        (0x1A, 0, 0, zero),
        (0x107, 0, 0, zero),
        (0x119, 0, 0, zero),
        (0x80000007, 0, 0, zero),
        (0x40000019, 0, 0, zero),
        (2**32 - 1, 2**32 - 1, 0, zero),
    ]:
        name = f"cpuid-{leaf:x}-{subleaf:x}-cpl-{cpl}"
        expect(name, s.cpuid(name, leaf, subleaf, record(cpl=cpl)), 0)
        expect(name, s.registers, wanted)


def aeskle(s):
    """An encode gives #UD exactly where AESKLE is 0."""
    for features in range(4):
        s.power_on(f"aeskle-{features}-power-on", count=1, features=features)
        for control in [CONTROL, CONTROL & ~model.CR4_KL]:
            name = f"aeskle-{features}-control-{control}"
            s.cpuid(name, 0x19, cpu=record(control=control))
            expect(name, s.step(f"{name}-encode", ENCODE_128, cpu=record(control=control)), 0 if s.registers[1] & 1 else 10)


def values(s):
    backup_statuses(s)
    copy_statuses(s)
    flags(s)
    rip(s)
    idle(s)
    encode_registers(s)
    whole_record(s)
    cpuid_features(s)
    cpuid_leaves(s)
    aeskle(s)


# ---- counter calls


def expect_masked(script, name, key, counter, data):
    """ZF 0, and data XORed with the enciphered counter blocks, which go on from 2^128 - 1 with 0."""
    first = int.from_bytes(counter, "big")
    blocks = [((first + n) % 2**128).to_bytes(16, "big") for n in range((len(data) + 15) // 16)]
    stream = b"".join(key_locker.cipher(key, b) for b in blocks)[: len(data)]
    expect(name, (script.cpu.rflags & model.ZF, script.buffer), (0, key_locker.xor(data, stream)))


def masked(script, name, key, data=DATA[:33], counter=COUNTER, bits=0, **fields):
    expect(name, script.ctr(name, handle(A, key, bits), data, counter, **fields), 0)
    expect_masked(script, name, key, counter, data)


def closed(script, name, h, data=DATA[:33], **fields):
    """ZF 1, and the buffer as it was."""
    expect(name, script.ctr(name, h, data, **fields), 0)
    expect(name, (script.cpu.rflags & model.ZF, script.buffer), (model.ZF, data))


def ctr_lengths(s):
    """None, about a block, about a group of eight; where it is done by four tables, singly and in groups of eight; and twice."""
    for key in [KEY_128, KEY_256]:
        for length in [0, 1, 15, 16, 17, 128, 131, 200]:
            masked(s, f"ctr-{8 * len(key)}-{length}", key, DATA[:length])
        masked(s, f"ctr-{8 * len(key)}-again", key, s.buffer)
        expect("ctr-again", s.buffer, DATA)
    for wide, off in [("on", 0), ("off", model.WIDE)]:
        s.power_on(f"ctr-wide-{wide}-power-on", count=2, features=model.ALL_FEATURES & ~off)
        load(s, f"ctr-wide-{wide}-load", A)
        for key, length in [(KEY_128, 33), (KEY_128, 383), (KEY_256, 384), (KEY_128, 541)]:
            masked(s, f"ctr-wide-{wide}-{8 * len(key)}-{length}", key, DATA.ljust(length, b"\0")[:length])


def ctr_counters(s):
    for name, counter in [
        ("byte", bytes(15) + b"\xff"),
        ("32-bits", bytes(12) + b"\xff" * 4),
        ("64-bits", bytes(8) + b"\xff" * 8),
        ("highest-bit", b"\x7f" + b"\xff" * 15),
        ("wraps", b"\xff" * 16),
        ("wraps-later", b"\xff" * 15 + b"\xfe"),
    ]:
        masked(s, f"ctr-counter-{name}", KEY_256, DATA[:48], counter)


def ctr_handles(s):
    """What a single block encryption does with a handle."""
    h = handle(A, KEY_128)
    for at in [0, 3, 15, 16, 31, 32, 47]:
        closed(s, f"ctr-damaged-{at}", h[:at] + bytes([h[at] ^ 0x10]) + h[at + 1 :])
    closed(s, "ctr-closed-empty", h[:47] + bytes(1), b"")
    closed(s, "ctr-closed-65536", h[:47] + bytes(1), bytes(65536))
    closed(s, "ctr-other-iwkey", handle(B, KEY_256))
    closed(s, "ctr-other-processor", h, processor=1)
    closed(s, "ctr-256-over-128", h + bytes(16))
    closed(s, "ctr-128-over-256", handle(A, KEY_256)[:48])
    closed(s, "ctr-no-encryption", handle(A, KEY_128, 2))
    masked(s, "ctr-no-decryption", KEY_128, bits=4)
    closed(s, "ctr-privilege-cpl-3", handle(A, KEY_256, 1), cpu=record(cpl=3))
    masked(s, "ctr-privilege-cpl-0", KEY_256, bits=1)
    masked(s, "ctr-cpl-3", KEY_256, cpu=record(cpl=3))


def ctr_flags(s):
    """All bits set before: the six flags are written, the others and the other registers kept."""
    before = record({n: b"\xff" * 16 for n in range(16)}, 2**64 - 1, 2**64 - 1, **dict.fromkeys(REGISTERS, 2**64 - 1))
    h = handle(A, KEY_128)
    for name, lent, rflags in [
        ("masked", h, 0xFFFF_FFFF_FFFF_F72A),
        ("closed", h[:47] + bytes(1), 0xFFFF_FFFF_FFFF_F76A),
        ("illegal", handle(A, KEY_128, 2), 0xFFFF_FFFF_FFFF_F76A),
    ]:
        expect(f"ctr-flags-{name}", s.ctr(f"ctr-flags-{name}", lent, PLAIN, cpu=before), 0)
        after = Cpu(before)
        after.rflags = rflags
        expect(f"ctr-flags-{name}", bytes(s.cpu.bytes), bytes(after.bytes))


def counter_calls(s):
    s.power_on("ctr-power-on", count=2)
    load(s, "ctr-load", A)
    ctr_lengths(s)
    ctr_counters(s)
    ctr_handles(s)
    ctr_flags(s)


# ---- refusals: each meets its own number and later ones, so that the order shows


def step_refusals(s):
    s.power_on("refusals-power-on", count=2)
    load(s, "refusals-load", A)
    bad_cpu = record(cpl=4, rax=2**63)
    ts = CONTROL | model.CR0_TS
    noncanonical = {"rax": 2**63}
    calls = [
        (3, "count-2", dict(string="", processor=2, cpu=bytes(407), random=bytes(1))),
        (4, "cpu-407", dict(string="", cpu=bytes(407), random=bytes(1))),
        (4, "cpu-409", dict(string="", cpu=bytes(409), random=bytes(1))),
        (5, "cpl-4", dict(string="", cpu=bad_cpu, random=bytes(1))),
        (5, "control-bit-4", dict(string="", cpu=record(control=CONTROL | 16), random=bytes(1))),
        (5, "control-bit-7", dict(string="", cpu=record(control=CONTROL | 128))),
        (5, "byte-402", dict(string="", cpu=record()[:402] + bytes([1]) + bytes(5))),
        (5, "byte-407", dict(string="", cpu=record()[:407] + bytes([1]))),
        (5, "byte-407-bit-7", dict(string="", cpu=record()[:407] + bytes([128]))),
        (7, "random-1", dict(string="", random=bytes(1))),
        (7, "random-47", dict(string=ENCODE_128, random=bytes(47))),
        (7, "random-49", dict(string=ENCODE_128, random=bytes(49))),
        (8, "byte-bad", dict(string="f0 f3 0f 38 db", cpu=record(control=0))),
        (9, "string-short", dict(string="f0 f3 0f 38 dc", cpu=record(control=0))),
        (9, "lock-alone", dict(string="f0", cpu=record(control=0))),
        (9, "f3-alone", dict(string="f3", cpu=record(control=0))),
        (10, "lock", dict(string="f0" + ENC_128, cpu=record(control=ts, **noncanonical))),
        (10, "lock-encode", dict(string="f0" + ENCODE_128, cpu=record(rcx=8))),
        (10, "lock-load", dict(string="f0" + LOAD, cpu=record(cpl=3))),
        (10, "cr4-kl", dict(string=ENC_128, cpu=record(control=ts & ~model.CR4_KL, **noncanonical))),
        (10, "osfxsr", dict(string=ENC_128, cpu=record(control=ts & ~model.CR4_OSFXSR, **noncanonical))),
        (10, "control-1", dict(string=ENCODE_128, cpu=record(control=1))),
        (10, "control-2", dict(string=ENCODE_128, cpu=record(control=2))),
        (10, "em", dict(string=LOAD, cpu=record(control=ts | model.CR0_EM, cpl=3))),
        (11, "ts", dict(string=ENC_128, cpu=record(control=ts, **noncanonical))),
        (11, "ts-encode", dict(string=ENCODE_256, cpu=record(control=ts, rcx=8))),
        (11, "ts-load", dict(string=LOAD, cpu=record(control=ts, rax=8))),
        (12, "encode-bit-31", dict(string=ENCODE_256, cpu=record(rcx=2**31))),
        (0, "encode-bit-32", dict(string=ENCODE_256, cpu=record(rcx=2**32))),
        (12, "load-cpl-1", dict(string=LOAD, cpu=record(cpl=1))),
        (12, "load-bit-5", dict(string=LOAD, cpu=record(rax=32))),
        (12, "load-bit-31", dict(string=LOAD, cpu=record(rax=2**31))),
        (12, "load-source-8", dict(string=LOAD, cpu=record(rax=16))),
        (12, "load-source-15", dict(string=LOAD, cpu=record(rax=30))),
        (12, "not-canonical", dict(string=ENC_128, cpu=record(**noncanonical))),
        (13, "stack-rbp", dict(string="f3 0f 38 dc 45 00", cpu=record(rbp=2**63))),
        (13, "stack-rbp-sib", dict(string="f3 0f 38 dc 44 0d 00", cpu=record(rbp=2**47))),
        (12, "not-stack-r13", dict(string="f3 41 0f 38 dc 45 00", cpu=record(r13=2**63))),
        (12, "not-stack-r12", dict(string="f3 41 0f 38 dc 04 24", cpu=record(r12=2**63))),
        (12, "not-stack-index-rbp", dict(string="f3 0f 38 dc 04 28", cpu=record(rbp=2**63))),
        (14, "over-the-top", dict(string=ENC_128, cpu=record(rax=2**64 - 8), memory=bytes(64))),
        (12, "into-the-gap", dict(string=ENC_128, cpu=record(rax=0xFFFF7FFFFFFFFFF8))),
        (14, "above-the-gap", dict(string=ENC_128, cpu=record(rax=0xFFFF800000000000))),
        (14, "rip-2-32", dict(string="f3 0f 38 dc 05 1f 00 00 00", cpu=record(rip=2**32), memory=bytes(40) + handle(A, KEY_128))),
        (14, "memory-63-of-256", dict(string=ENC_256, memory=handle(A, KEY_128) + bytes(15))),
        (14, "memory-0", dict(string=ENC_128)),
    ]
    for number, name, call in calls:
        expect(name, s.step(f"refusal-{name}", **call), number)


def feature_refusals(s):
    """Each feature off, one at a time."""
    h = handle(model.NO_KEY, KEY_128)
    for name, bit, numbers in [
        ("kl", model.KL, (10, 10, 10, 10, 12)),
        ("firmware", model.FIRMWARE, (10, 10, 10, 0, 0)),
        ("wide", model.WIDE, (0, 10, 0, 0, 0)),
        ("backup", model.BACKUP, (0, 0, 0, 0, 12)),
    ]:
        s.power_on(f"no-{name}-power-on", count=1, features=model.ALL_FEATURES & ~bit)
        used = use(s, f"no-{name}-use", ENC_128, h)
        if numbers[0] == 0:
            expect_opened(s, f"no-{name}", key_locker.cipher(KEY_128, PLAIN))
        found = (
            used,
            use(s, f"no-{name}-wide", WIDE_ENC_128, h),
            encode(s, f"no-{name}-encode", KEY_128),
            load(s, f"no-{name}-load", A),
            s.write(f"no-{name}-copy-out", 0, COPY_OUT),
        )
        expect(name, found, numbers)
        expect(name, s.settle(f"no-{name}-settle", GOOD), 0)
    s.power_on("no-no-backup-power-on", count=1, features=model.ALL_FEATURES & ~model.NO_BACKUP)
    expect("no-no-backup", load(s, "no-no-backup-load", A, eax=1), 12)
    s.power_on("no-random-power-on", count=1, features=model.ALL_FEATURES & ~model.RANDOM_SOURCE)
    expect("no-random", load(s, "no-random-load", A, eax=2, random=bytes(48)), 12)
    expect("no-random", load(s, "no-random-source-0", A, random=bytes(48)), 0)


def register_refusals(s):
    s.power_on("registers-power-on", count=2)
    calls = [
        (3, s.read, "read-processor-2", dict(processor=2, address=0, cpl=4)),
        (5, s.read, "read-cpl-4", dict(processor=1, address=0, cpl=4)),
        (12, s.read, "read-cpl-1", dict(processor=1, address=0x990, cpl=1)),
        (12, s.read, "read-d91", dict(processor=1, address=0xD91)),
        (12, s.read, "read-992", dict(processor=1, address=0x992)),
        (3, s.write, "write-processor-2", dict(processor=2, address=0, cpl=4)),
        (5, s.write, "write-cpl-255", dict(processor=1, address=0, cpl=255)),
        (12, s.write, "write-cpl-3", dict(processor=1, address=0xD91, cpl=3, value=0)),
        (12, s.write, "write-990", dict(processor=1, address=0x990)),
        (12, s.write, "write-value-2", dict(processor=1, address=0xD91, value=2)),
        (12, s.write, "write-value-63", dict(processor=1, address=0xD92, value=2**63 + 1)),
        (0, s.write, "write-0", dict(processor=1, address=0xD91, value=0)),
        (0, s.write, "write-d92", dict(processor=1, address=0xD92)),
        (2, s.settle, "settle-2", dict(code=2)),
        (0, s.settle, "settle-not-pending", dict(code=1)),
        (2, s.sleep, "sleep-3", dict(code=3)),
    ]
    for number, call, name, arguments in calls:
        expect(name, call(f"refusal-{name}", **arguments), number)


def cpuid_refusals(s):
    """1, 4 and 5, in this order, and nothing else: not CR0.EM, CR0.TS or a CPL up to 3."""
    no_machine, machine = bytes(model.MACHINE_SIZE), Machine(count=1, features=model.ALL_FEATURES).to_bytes()
    for number, name, lent, cpu in [
        (1, "count-0", no_machine, bytes(407)),
        (1, "count-0-cpl-4", no_machine, record(cpl=4)),
        (1, "features-64", machine[:1] + bytes([64]) + machine[2:], record()),
        (4, "cpu-0", machine, b""),
        (4, "cpu-407", machine, record()[:407]),
        (4, "cpu-409-cpl-4", machine, record(cpl=4) + bytes(1)),
        (5, "cpl-4", machine, record(cpl=4)),
        (5, "cpl-255", machine, record(cpl=255)),
        (5, "control-bit-4", machine, record(control=CONTROL | 16)),
        (5, "control-bit-7", machine, record(control=CONTROL | 128)),
        (5, "byte-402", machine, record()[:402] + bytes([1]) + bytes(5)),
        (5, "byte-407", machine, record()[:407] + bytes([128])),
        (0, "none", machine, record(cpl=3, control=15)),
    ]:
        s.lend(f"refusal-cpuid-{name}-lend", lent)
        for leaf in [7, 0]:
            expect(f"cpuid-{name}", s.cpuid(f"refusal-cpuid-{name}-{leaf}", leaf, cpu=cpu), number)


def ctr_refusals(s):
    """1, 3, 4, 5, 18, 10 and 11, in this order, and nothing else."""

    def machine(off=0, **fields):
        return Machine(**{"count": 1, "features": model.ALL_FEATURES & ~off} | fields).to_bytes()

    def refused(number, name, lent=machine(), h=bytes(48), counter=COUNTER, buffer=PLAIN, **fields):
        if lent != s.machine:
            s.lend(f"refusal-ctr-{name}-lend", lent)
        expect(f"ctr-{name}", s.ctr(f"refusal-ctr-{name}", h, buffer, counter, **fields), number)

    ts, no_control = CONTROL | model.CR0_TS, record(control=0)
    refused(1, "count-0", bytes(model.MACHINE_SIZE), cpu=bytes(407))
    refused(1, "features-64", machine(features=64), processor=1)
    refused(1, "pending-2", machine(pending=2), h=b"", cpu=no_control)
    refused(3, "processor-1", processor=1, cpu=bytes(407))
    refused(3, "processor-255", processor=255, h=b"")
    refused(4, "cpu-0", cpu=b"", h=b"")
    refused(4, "cpu-407", cpu=bytes(407))
    refused(4, "cpu-409", cpu=record(cpl=4) + bytes(1))
    refused(5, "cpl-4", cpu=record(cpl=4, control=0), h=b"")
    refused(5, "cpl-255", cpu=record(cpl=255), counter=b"")
    refused(5, "control-bit-4", cpu=record(control=CONTROL | 16), buffer=bytes(65537))
    refused(5, "control-bit-7", cpu=record(control=128), h=b"")
    refused(5, "byte-402", cpu=no_control[:402] + bytes([1]) + bytes(5), h=b"")
    refused(5, "byte-407", cpu=no_control[:407] + bytes([128]), h=b"")
    for length in [0, 47, 49, 63, 65, 112]:
        refused(18, f"handle-{length}", h=bytes(length), cpu=no_control)
    for length in [0, 15, 17, 32]:
        refused(18, f"counter-{length}", counter=bytes(length), cpu=no_control)
    refused(18, "buffer-65537", buffer=bytes(65537), cpu=no_control)
    refused(18, "buffer-65537-kl", machine(model.KL), buffer=bytes(65537))
    for name, off, control in [
        ("kl", model.KL, ts),
        ("firmware", model.FIRMWARE, ts),
        ("cr4-kl", 0, ts & ~model.CR4_KL),
        ("osfxsr", 0, ts & ~model.CR4_OSFXSR),
        ("em", 0, ts | model.CR0_EM),
    ]:
        refused(10, name, machine(off), cpu=record(control=control), h=bytes(64))
    refused(11, "ts", cpu=record(control=ts))
    refused(11, "ts-empty", cpu=record(control=ts, cpl=3), buffer=b"")
    refused(0, "none", machine(model.WIDE | model.BACKUP | model.NO_BACKUP | model.RANDOM_SOURCE), cpu=record(cpl=3))


def lent_records(s):
    """Records that no list of calls reaches: refused, or taken to the letter."""
    absent = Machine(count=2, features=model.ALL_FEATURES)
    present = Machine(count=2, features=model.ALL_FEATURES, backup=A, store=B)
    for name, good, at, byte in [
        ("count-0", absent, 0, 0),
        ("count-17", absent, 0, 17),
        ("features-64", absent, 1, 64),
        ("features-128", absent, 1, 128),
        ("source-2", absent, 2 + 48, 2),
        ("no-backup-2", absent, 2 + 49, 2),
        ("copy-status-2", absent, 2 + 50, 2),
        ("past-the-count-integrity", absent, 2 + 51 * 2, 1),
        ("past-the-count-encryption", absent, 2 + 51 * 2 + 16, 1),
        ("past-the-count-source", absent, 2 + 51 * 2 + 48, 1),
        ("past-the-count-no-backup", absent, 2 + 51 * 2 + 49, 1),
        ("past-the-count-status", absent, 2 + 51 * 2 + 50, 1),
        ("past-the-count-last", absent, 2 + 51 * 16 - 1, 1),
        ("backup-2", present, 818, 2),
        ("backup-source-2", present, 818 + 49, 2),
        ("backup-no-backup-2", present, 818 + 50, 2),
        ("absent-backup-integrity", absent, 818 + 1, 1),
        ("absent-backup-encryption", absent, 818 + 48, 1),
        ("absent-backup-source", absent, 818 + 49, 1),
        ("absent-backup-no-backup", absent, 818 + 50, 1),
        ("store-2", present, 869, 2),
        ("store-source-2", present, 869 + 49, 2),
        ("store-no-backup-2", present, 869 + 50, 2),
        ("absent-store-integrity", absent, 869 + 1, 1),
        ("absent-store-encryption", absent, 869 + 48, 1),
        ("absent-store-source", absent, 869 + 49, 1),
        ("absent-store-no-backup", absent, 869 + 50, 1),
        ("pending-2", absent, 920, 2),
        ("valid-2", absent, 921, 2),
        ("error-2", absent, 922, 2),
        ("consumed-2", absent, 923, 2),
    ]:
        record = bytearray(good.to_bytes())
        record[at] = byte
        s.lend(f"lent-{name}", bytes(record))
        expect(name, s.reset(f"lent-{name}-reset"), 1)
        expect(name, s.settle(f"lent-{name}-settle", 2), 1)
        if at in [0, *range(920, 924)]:
            expect(name, s.taken(f"lent-{name}-taken"), 1)
            expect(name, s.step(f"lent-{name}-idle", "", processor=2, cpu=b"", random=bytes(1)), 1)
    s.lend("lent-present", present.to_bytes())
    expect("present", s.reset("lent-present-reset"), 0)
    for code in [GOOD, BAD]:
        s.lend("lent-pending-alone", Machine(2, 0, pending=1, error=1).to_bytes())
        s.settle(f"lent-pending-alone-settle-{code}", code)
    for code in [OLD, NEW, JUNK]:
        s.lend("lent-pending-alone", Machine(2, 0, store=A, pending=1, valid=1, error=1, consumed=1).to_bytes())
        s.sleep(f"lent-pending-alone-sleep-{code}", code)
    for name, machine, consumed in [
        ("not-pending", Machine(2, 0, valid=1, error=1), 0),
        ("pending-alone", Machine(2, 0, pending=1, valid=1, error=1), 1),
        ("pending-store", Machine(2, 0, store=A, pending=1, valid=1), 1),
        ("pending-consumed", Machine(2, 0, backup=A, pending=1, error=1, consumed=1), 1),
    ]:
        s.lend(f"lent-{name}", machine.to_bytes())
        expect(name, s.taken(f"lent-{name}-taken"), 0)
        expect(name, s.machine, machine.to_bytes()[:923] + bytes([consumed]))
    keep = IWKey(B.integrity, B.encryption, source=1, no_backup=1)
    s.lend("lent-copy-in", Machine(2, model.ALL_FEATURES, backup=keep, copy_status=[1, 1] + [0] * 14).to_bytes())
    s.write("lent-copy-in-no-backup", 1, COPY_IN)
    s.write("lent-copy-out-no-backup", 1, COPY_OUT)
    s.lend("lent-no-backup", Machine(2, model.ALL_FEATURES, copy_status=[1, 1] + [0] * 14).to_bytes())
    s.write("lent-copy-in-absent", 0, COPY_IN)
    expect("lent-copy-in-absent", model.machine_from(s.machine).copy_status[:2], [0, 1])
    s.reset("lent-reset")


def refusals(s):
    expect("power-on", s.power_on("refusal-count-0", count=0), 1)
    expect("power-on", s.reset("refusal-no-machine"), 1)
    expect("power-on", s.power_on("refusal-count-17", count=17), 1)
    expect("power-on", s.power_on("refusal-features-64", features=64), 1)
    step_refusals(s)
    feature_refusals(s)
    register_refusals(s)
    cpuid_refusals(s)
    ctr_refusals(s)
    lent_records(s)


def scenarios():
    s = Script()
    examples(s)
    attacks(s)
    operands(s)
    address_size(s)
    values(s)
    counter_calls(s)
    refusals(s)
    return s


# ---- random calls


def often(rng, usual, other, chance=0.9):
    return usual() if rng.random() < chance else other()


def random_key(rng):
    def part(size):
        return often(rng, lambda: rng.randbytes(size), lambda: bytes(size))

    fresh = IWKey(part(16), part(32), rng.randrange(2), rng.randrange(2))
    return rng.choice([A, B, model.NO_KEY, fresh])


def random_record(rng):
    """A machine record that refusal 1 takes, or one with a byte changed."""
    count = rng.randrange(1, 17)
    keys = [random_key(rng) if p < count else model.NO_KEY for p in range(16)]
    statuses = [rng.randrange(2) if p < count else 0 for p in range(16)]
    slots = [rng.choice([None, random_key(rng)]) for _ in range(2)]
    features = often(rng, lambda: model.ALL_FEATURES, lambda: rng.randrange(64), 0.7)
    machine = bytearray(Machine(count, features, keys, statuses, *slots, *(rng.randrange(2) for _ in range(4))).to_bytes())
    if rng.random() < 0.2:
        at = rng.choice([0, 1, rng.randrange(924), rng.randrange(818, 924), 2 + 51 * rng.randrange(16) + rng.choice([48, 49, 50])])
        machine[at] = rng.choice([1, 2, 255])
    return bytes(machine)


# The bytes after the opcode, for each form.
OPERANDS = {form.mnemonic: list(decoder.operand_bytes(random.Random(0), form)) for form in decoder.FORMS}


def random_string(rng):
    form = rng.choice(decoder.FORMS)
    operands = rng.choice(OPERANDS[form.mnemonic])
    rex = often(rng, lambda: b"", lambda: bytes([0x40 + rng.randrange(16)]), 0.5)
    lock = often(rng, lambda: b"", lambda: b"\xf0", 0.97)
    size = often(rng, lambda: b"", lambda: b"\x67", 0.6)
    string = lock + size + b"\xf3" + rex + bytes([0x0F, 0x38, form.opcode]) + operands
    string = often(rng, lambda: string + rng.randbytes(rng.choice([0, 0, 3])), lambda: decoder.altered(rng, string), 0.95)
    return often(rng, lambda: string, lambda: b"", 0.95)


def random_handle(rng, iwkey):
    """Mostly of this IWKey and as an encode gives it; sometimes authentic with another AAD, of another IWKey, or damaged."""
    key = rng.randbytes(rng.choice([16, 32]))
    iwkey = often(rng, lambda: iwkey, lambda: random_key(rng))
    bits = aad(key, often(rng, lambda: 0, lambda: rng.randrange(8), 0.6))
    if rng.random() < 0.1:
        bits = (int.from_bytes(bits, "little") ^ 1 << rng.choice([rng.randrange(128), rng.randrange(24, 28)])).to_bytes(16, "little")
    h = bytearray(key_locker.wrap(iwkey.integrity, iwkey.encryption, bits, key))
    if rng.random() < 0.1:
        h[rng.randrange(len(h))] ^= 1 << rng.randrange(8)
    return bytes(h)


EDGES = [0, 2**47 - 64, 2**47 - 48, 2**47 - 47, 2**47, 2**64 - 2**47 - 1, 2**64 - 2**47, 2**64 - 48, 2**64 - 1]


def aim(rng, cpu, string, at):
    """Changes the base register, or RIP, so that the string's memory operand is at a place; where there is neither, nothing."""
    try:
        i = model.decode(string)
    except Refused:
        return
    if i is None or not i.use:
        return
    off = at - model.effective_address(cpu, i)[0]
    base, *others = i.memory[1:-1].replace("-", "+").split("+")
    size = i.address_size
    if base == size.ip:
        cpu.rip += off
    elif base in size.registers and not any(part.startswith(base + "*") for part in others):
        # with 67 the place is one modulo 2^32, and whatever is in bits 63:32 of the registers stays there
        n = size.registers.index(base)
        cpu.set_register(n, cpu.register(n) + off)


def random_cpu(rng):
    cpu = Cpu(rng.randbytes(400) + bytes(8))
    for n in range(16):
        if rng.random() < 0.8:
            # encode sources and EAX mostly low, whatever is above bit 31
            cpu.set_register(n, rng.getrandbits(32) << 32 | often(rng, lambda: rng.randrange(4), lambda: rng.randrange(64)))
    if rng.random() < 0.05:
        cpu.rip = 2**64 - rng.randrange(16)
    cpu.bytes[400] = often(rng, lambda: rng.choice([0, 0, 0, 1, 2, 3]), lambda: rng.randrange(256), 0.99)
    cpu.bytes[401] = often(rng, lambda: CONTROL, lambda: rng.randrange(32), 0.95)
    if rng.random() < 0.01:
        cpu.bytes[rng.randrange(401, 408)] ^= 1 << rng.randrange(8)
    return cpu


def random_cpu_record(rng, cpu):
    """Mostly of its length."""
    record = bytes(cpu.bytes)
    return often(rng, lambda: record, lambda: rng.choice([record[:407], record + b"\0", b""]), 0.98)


def random_processor(rng, s):
    return often(rng, lambda: rng.randrange(s.machine[0] or 1), lambda: rng.randrange(20), 0.97)


def handle_of_processor(rng, s, processor):
    entry = s.machine[2 + 51 * processor :][:50]
    return random_handle(rng, IWKey.from_bytes(entry) if processor < 16 else A)


def random_step(rng, s, name):
    processor = random_processor(rng, s)
    string = random_string(rng)
    cpu = random_cpu(rng)
    if not string and rng.random() < 0.5:
        cpu.bytes[401] = rng.randrange(16)
    h = handle_of_processor(rng, s, processor)
    before = rng.randrange(64)
    memory = rng.randbytes(before) + h + rng.randbytes(rng.choice([0, 0, 16, 40]))
    memory = often(rng, lambda: memory, lambda: memory[: rng.randrange(len(memory))], 0.95)
    aim(rng, cpu, string, often(rng, lambda: before, lambda: rng.choice([*EDGES, 2**31 + before, 2**32 + before]) + rng.randrange(-1, 2)))
    data = rng.randbytes(often(rng, lambda: rng.choice([0, 48]), lambda: rng.randrange(60), 0.98))
    s.step(name, string, processor, random_cpu_record(rng, cpu), memory, data)


def random_cpuid(rng, s, name):
    leaf = often(rng, lambda: rng.choice([7, 0x19, 0x19]), lambda: rng.choice([0, 6, 8, 0x18, 0x1A, 0x107, 0x80000019, rng.getrandbits(32)]), 0.8)
    subleaf = often(rng, lambda: 0, lambda: rng.choice([1, 2**32 - 1, rng.getrandbits(32)]), 0.6)
    cpu = random_cpu(rng)
    if rng.random() < 0.5:
        cpu.bytes[401] = rng.randrange(16)
    s.cpuid(name, leaf, subleaf, random_cpu_record(rng, cpu))


def random_ctr(rng, s, name):
    processor = random_processor(rng, s)
    h = handle_of_processor(rng, s, processor)
    h = often(rng, lambda: h, lambda: rng.choice([h[:-1], h + b"\0", h[:48], b""]), 0.97)
    carries = rng.randrange(16)
    counter = rng.randbytes(15 - carries) + b"\xff" * carries + bytes([rng.choice([0, 255, rng.randrange(240, 256)])])
    counter = often(rng, lambda: counter, lambda: rng.choice([counter[:15], counter + b"\0", b""]), 0.98)
    length = rng.choice([rng.randrange(40), rng.randrange(201), rng.randrange(370, 700)])
    length = often(rng, lambda: length, lambda: 65537, 0.98)
    buffer = rng.randbytes(min(length, 200)).ljust(length, b"\0")
    s.ctr(name, h, buffer, counter, processor, random_cpu_record(rng, random_cpu(rng)))


def random_call(rng, s, name):
    processor = often(rng, lambda: rng.randrange(s.machine[0] or 1), lambda: rng.randrange(256), 0.95)
    cpl = often(rng, lambda: 0, lambda: rng.randrange(6), 0.95)
    kinds = {"step": 30, "write": 10, "read": 4, "cpuid": 4, "ctr": 8, "settle": 4, "taken": 4, "sleep": 3, "reset": 1, "lend": 4, "power-on": 1}
    kind = rng.choices(list(kinds), kinds.values())[0]
    if kind == "step":
        random_step(rng, s, name)
    elif kind == "write":
        address = often(rng, lambda: rng.choice([COPY_OUT, COPY_IN]), lambda: rng.choice([0x990, 0x991, 0xD90, 0xD93, rng.getrandbits(32)]))
        s.write(name, processor, address, often(rng, lambda: 1, lambda: rng.choice([0, 2, 3, 2**63, rng.getrandbits(64)])), cpl)
    elif kind == "read":
        s.read(name, processor, often(rng, lambda: rng.choice([0x990, 0x991]), lambda: rng.choice([0xD91, 0xD92, rng.getrandbits(32)])), cpl)
    elif kind == "cpuid":
        random_cpuid(rng, s, name)
    elif kind == "ctr":
        random_ctr(rng, s, name)
    elif kind == "settle":
        s.settle(name, often(rng, lambda: rng.randrange(2), lambda: rng.randrange(256)))
    elif kind == "taken":
        s.taken(name)
    elif kind == "sleep":
        s.sleep(name, often(rng, lambda: rng.randrange(3), lambda: rng.randrange(256)))
    elif kind == "reset":
        s.reset(name)
    elif kind == "lend":
        s.lend(name, random_record(rng))
    else:
        s.power_on(name, often(rng, lambda: rng.randrange(1, 17), lambda: rng.randrange(20)), rng.choice([63, 63, rng.randrange(80)]))


def compare(s):
    text = "".join(line + "\n" for line in s.stdin)
    assert len(text) <= STDIN_LIMIT
    run = subprocess.run([PROGRAM], input=text, capture_output=True, text=True, check=True)
    found = run.stdout.splitlines()
    for given, wanted, line in zip(s.stdin, s.stdout, found):
        if line != wanted:
            sys.exit(f"of this call\n{given}\nthe model says\n{wanted}\nand scenarios\n{line}")
    if len(found) != len(s.stdout):
        sys.exit(f"scenarios wrote {len(found)} lines for {len(s.stdin)} calls")


def compare_random(calls, seed):
    """In runs of as many calls as the program reads."""
    rng = random.Random(seed)
    answers = Counter()
    while calls > 0:
        s = Script()
        s.lend("begin", random_record(rng))
        for number in range(min(calls, 25)):
            random_call(rng, s, f"random-{number}")
        compare(s)
        calls -= 25
        answers.update(answer(line) for line in s.stdout)
    print("scenarios says what the model says:")
    for what, count in sorted(answers.items()):
        print(f"{count:6} {what}")


def answer(line):
    """The kind of call, its number, and ZF."""
    words = line.split()
    zf = f" zf {words[words.index('zf') + 1]}" if "zf" in words else ""
    return f"{words[1]} {words[2] if words[2].isdigit() else ''}{zf}"


# ---- the files


def files(s):
    texts = {path: "".join(line + "\n" for line in lines) for path, lines in [(STDIN, s.stdin), (STDOUT, s.stdout)]}
    if len(texts[STDIN]) > STDIN_LIMIT:
        sys.exit(f"{len(texts[STDIN])} characters are more than the program reads")
    return texts


def write():
    for path, text in files(scenarios()).items():
        path.write_text(text)


def check():
    for path, text in files(scenarios()).items():
        if not path.is_file() or path.read_text() != text:
            sys.exit(f"{path.relative_to(ROOT)} is not what tests/scenarios.py writes")


def main(args):
    if not args:
        write()
    elif args == ["--check"]:
        check()
    elif len(args) == 3 and args[0] == "--random":
        scenarios()
        compare_random(int(args[1]), int(args[2]))
    else:
        sys.exit(__doc__)


if __name__ == "__main__":
    main(sys.argv[1:])
