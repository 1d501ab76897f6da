"""A second model of the whole emulated machine and of the keyring, beside the proved one, to derive what test programs have to write.

It is written from the scope (see docs/DECISIONS.md) and from nothing under crates/, in the scope's order and for reading. The machine record is
its 924 bytes and the CPU record its 408; a call gives what it leaves, or raises Refused with the number of the refusal.
"""

import re
from dataclasses import dataclass, field

import decoder
import key_locker

# ---- records

MACHINE_SIZE = 924
CPU_SIZE = 408
MEMORY_LIMIT = 1_048_576
RANDOM_SIZE = 48
COUNTER_SIZE = 16
BUFFER_LIMIT = 65_536
PROCESSOR_LIMIT = 16

# Bits of the feature byte.
KL, FIRMWARE, WIDE, BACKUP, NO_BACKUP, RANDOM_SOURCE = (1 << n for n in range(6))
ALL_FEATURES = 0x3F

# Bits of the control byte.
CR4_KL, CR4_OSFXSR, CR0_EM, CR0_TS = (1 << n for n in range(4))

CF, PF, AF, ZF, SF, OF = (1 << n for n in [0, 2, 4, 6, 7, 11])
SIX_FLAGS = CF | PF | AF | ZF | SF | OF

WORD = 2**64


class Refused(Exception):
    @property
    def number(self):
        return self.args[0]


def refuse_if(condition, number):
    if condition:
        raise Refused(number)


@dataclass(frozen=True)
class IWKey:
    integrity: bytes = bytes(16)
    encryption: bytes = bytes(32)
    source: int = 0
    no_backup: int = 0

    def to_bytes(self):
        return self.integrity + self.encryption + bytes([self.source, self.no_backup])

    @staticmethod
    def from_bytes(b):
        return IWKey(b[:16], b[16:48], b[48], b[49])


NO_KEY = IWKey()
KEY_SIZE = len(NO_KEY.to_bytes())


def slot_bytes(key):
    """Backup or store: a presence byte and an IWKey, which is zero where it is absent."""
    return bytes([0]) + NO_KEY.to_bytes() if key is None else bytes([1]) + key.to_bytes()


@dataclass
class Machine:
    count: int
    features: int
    keys: list = field(default_factory=lambda: [NO_KEY] * PROCESSOR_LIMIT)
    copy_status: list = field(default_factory=lambda: [0] * PROCESSOR_LIMIT)
    backup: IWKey | None = None
    store: IWKey | None = None
    pending: int = 0
    valid: int = 0
    error: int = 0
    consumed: int = 0

    def to_bytes(self):
        entries = b"".join(key.to_bytes() + bytes([status]) for key, status in zip(self.keys, self.copy_status))
        bits = bytes([self.pending, self.valid, self.error, self.consumed])
        return bytes([self.count, self.features]) + entries + slot_bytes(self.backup) + slot_bytes(self.store) + bits


def flag(byte):
    refuse_if(byte > 1, 1)
    return byte


def key_from(b):
    key = IWKey.from_bytes(b)
    refuse_if(key.source > 1 or key.no_backup > 1, 1)
    return key


def slot_from(b):
    if flag(b[0]):
        return key_from(b[1:])
    refuse_if(any(b), 1)
    return None


def machine_from(b):
    """The lent bytes taken apart, with refusal 1."""
    refuse_if(len(b) != MACHINE_SIZE, 1)
    m = Machine(count=b[0], features=b[1])
    refuse_if(not 1 <= m.count <= PROCESSOR_LIMIT or m.features > ALL_FEATURES, 1)
    for p in range(PROCESSOR_LIMIT):
        entry = b[2 + (KEY_SIZE + 1) * p :][: KEY_SIZE + 1]
        refuse_if(p >= m.count and any(entry), 1)
        m.keys[p] = key_from(entry)
        m.copy_status[p] = flag(entry[KEY_SIZE])
    rest = b[2 + (KEY_SIZE + 1) * PROCESSOR_LIMIT :]
    m.backup = slot_from(rest[: KEY_SIZE + 1])
    m.store = slot_from(rest[KEY_SIZE + 1 :][: KEY_SIZE + 1])
    m.pending, m.valid, m.error, m.consumed = map(flag, rest[2 * (KEY_SIZE + 1) :])
    return m


class Cpu:
    """A CPU record that is being changed."""

    def __init__(self, record=None):
        self.bytes = bytearray(record or CPU_SIZE)

    def number(self, at):
        return int.from_bytes(self.bytes[at : at + 8], "little")

    def set_number(self, at, value):
        self.bytes[at : at + 8] = (value % WORD).to_bytes(8, "little")

    def xmm(self, n):
        return bytes(self.bytes[16 * n : 16 * n + 16])

    def set_xmm(self, n, block):
        assert len(block) == 16
        self.bytes[16 * n : 16 * n + 16] = block

    def register(self, n):
        return self.number(256 + 8 * n)

    def set_register(self, n, value):
        self.set_number(256 + 8 * n, value)

    rip = property(lambda self: self.number(384), lambda self, value: self.set_number(384, value))
    rflags = property(lambda self: self.number(392), lambda self, value: self.set_number(392, value))
    cpl = property(lambda self: self.bytes[400])
    control = property(lambda self: self.bytes[401])

    def set_flags(self, on):
        """Of the six flags those of on are 1 and the others 0; other bits of RFLAGS are kept."""
        self.rflags = self.rflags & ~SIX_FLAGS | on


def cpu_from(record):
    """The lent record, with refusals 4 and 5."""
    refuse_if(len(record) != CPU_SIZE, 4)
    cpu = Cpu(record)
    refuse_if(cpu.cpl > 3 or cpu.control > 15 or any(cpu.bytes[402:]), 5)
    return cpu


# ---- strings: the text that tests/decoder.py makes of them, taken apart


@dataclass(frozen=True)
class Instruction:
    name: str  # without LOCK
    lock: bool
    operands: list
    length: int

    memory = property(lambda self: self.operands[-1])
    # the first name of a place with 67 is one of 32 bits: a register, eip, or eiz for none
    address_size = property(lambda self: decoder.BITS_32 if re.match(r"\[(e|r[0-9]+d)", self.memory) else decoder.BITS_64)
    wide = property(lambda self: "wide" in self.name)
    use = property(lambda self: self.name.endswith("kl"))
    encode = property(lambda self: self.name.startswith("encodekey"))
    load = property(lambda self: self.name == "loadiwkey")
    size = property(lambda self: 32 if "256" in self.name else 16)
    encrypts = property(lambda self: self.name.startswith("aesenc"))


def decode(string):
    """None for an empty string: an idle step has no instruction."""
    if not string:
        return None
    text = decoder.decode(string)
    if refused := re.fullmatch("refused (.*)", text):
        raise Refused(int(refused[1]))
    found = re.fullmatch("(lock )?([a-z0-9]+) (.*) ; ([0-9]+) bytes", text)
    return Instruction(found[2], bool(found[1]), found[3].split(", "), int(found[4]))


def xmm_number(operand):
    return decoder.XMM.index(operand)


def r32_number(operand):
    return decoder.R32.index(operand)


def named_value(cpu, instruction, name):
    """What a name in a memory place stands for, in 64 bits whatever the address size."""
    size = instruction.address_size
    if name == size.ip:
        return cpu.rip + instruction.length
    return 0 if name == "eiz" else cpu.register(size.registers.index(name))


def effective_address(cpu, instruction):
    """The address, which 67 takes modulo 2^32 when all is added, and whether it is in the stack segment."""
    address, stack = 0, False
    for sign, part in re.findall(r"([+-]?)([^+-]+)", instruction.memory[1:-1]):
        if part.startswith("0x"):
            address += int(sign + part, 16)
        else:
            name, _, scale = part.partition("*")
            address += named_value(cpu, instruction, name) * int(scale or 1)
            stack |= part in ["rsp", "rbp", "esp", "ebp"]
    return address % 2**instruction.address_size.bits, stack


def canonical(address):
    return address >> 47 in [0, 2**17 - 1]


# ---- what a step is turned back for, from 10 on


def undefined(m, cpu, i):
    control = cpu.control
    return (
        i.lock
        or not m.features & KL
        or not control & CR4_KL
        or control & CR0_EM
        or not control & CR4_OSFXSR
        or (not i.load and not m.features & FIRMWARE)
        or (i.wide and not m.features & WIDE)
    )


def load_faults(m, cpu):
    eax = cpu.register(0) % 2**32
    no_backup, source = eax & 1, eax >> 1 & 15
    return (
        cpu.cpl > 0
        or source > 1
        or eax >> 5 != 0
        or (no_backup and not m.features & NO_BACKUP)
        or (source == 1 and not m.features & RANDOM_SOURCE)
    )


def handle_in(memory, cpu, i):
    """The handle's bytes, or refusal 12, 13 or 14."""
    address, stack = effective_address(cpu, i)
    places = [(address + n) % WORD for n in range(32 + i.size)]
    refuse_if(not all(map(canonical, places)), 13 if stack else 12)
    refuse_if(any(place >= len(memory) for place in places), 14)
    return bytes(memory[place] for place in places)


# ---- what each instruction does


def encode_key(m, processor, cpu, i):
    destination, source = map(r32_number, i.operands)
    aad = bytes([cpu.register(source) & 7, 0, 0, {16: 0, 32: 1}[i.size]]) + bytes(12)
    key = (cpu.xmm(0) + cpu.xmm(1))[: i.size]
    iwkey = m.keys[processor]
    handle = key_locker.wrap(iwkey.integrity, iwkey.encryption, aad, key)
    for n in range(len(handle) // 16):
        cpu.set_xmm(n, handle[16 * n : 16 * n + 16])
    for n in [4, 5, 6]:
        cpu.set_xmm(n, bytes(16))
    cpu.set_register(destination, iwkey.no_backup + 2 * iwkey.source)
    cpu.set_flags(0)


def legal(aad, cpl, i):
    bits = int.from_bytes(aad, "little")
    cpl_0_only, no_encryption, no_decryption = bits & 1, bits >> 1 & 1, bits >> 2 & 1
    key_type = bits >> 24 & 15
    reserved = bits & ~(7 | 15 << 24)
    forbidden = no_encryption if i.encrypts else no_decryption
    return not reserved and key_type == {16: 0, 32: 1}[i.size] and not (cpl_0_only and cpl > 0) and not forbidden


def opened(m, processor, cpu, i, handle):
    """The key of a handle that is legal for the use and authentic, or None; the flags say which."""
    iwkey = m.keys[processor]
    key = key_locker.unwrap(iwkey.integrity, iwkey.encryption, handle) if legal(handle[:16], cpu.cpl, i) else None
    cpu.set_flags(ZF if key is None else 0)
    return key


def use(m, processor, cpu, i, handle):
    key = opened(m, processor, cpu, i, handle)
    if key is None:
        return
    aes = key_locker.cipher if i.encrypts else key_locker.inv_cipher
    for n in range(8) if i.wide else [xmm_number(i.operands[0])]:
        cpu.set_xmm(n, aes(key, cpu.xmm(n)))


def load_iwkey(m, processor, cpu, i, random):
    eax = cpu.register(0)
    no_backup, source = eax & 1, eax >> 1 & 15
    if source == 1 and not random:
        cpu.set_flags(ZF)
        return
    src1, src2 = map(xmm_number, i.operands)
    key = cpu.xmm(src2) + cpu.xmm(src1) + cpu.xmm(0)
    if source == 1:
        key = key_locker.xor(key, random)
    m.keys[processor] = IWKey(key[32:], key[:32], source, no_backup)
    cpu.set_flags(0)


def step(machine, processor, cpu, memory, random, string):
    """The machine record and the CPU record after it."""
    m = machine_from(machine)
    refuse_if(processor >= m.count, 3)
    cpu = cpu_from(cpu)
    refuse_if(len(memory) > MEMORY_LIMIT, 6)
    refuse_if(len(random) not in [0, RANDOM_SIZE], 7)
    i = decode(string)
    if i is None:
        return machine, bytes(cpu.bytes)
    refuse_if(undefined(m, cpu, i), 10)
    refuse_if(cpu.control & CR0_TS, 11)
    if i.encode:
        refuse_if(cpu.register(r32_number(i.operands[1])) % 2**32 >> 3, 12)
        encode_key(m, processor, cpu, i)
    elif i.load:
        refuse_if(load_faults(m, cpu), 12)
        load_iwkey(m, processor, cpu, i, random)
    else:
        use(m, processor, cpu, i, handle_in(memory, cpu, i))
    cpu.rip += i.length
    return m.to_bytes(), bytes(cpu.bytes)


# ---- counter mode

SINGLE_FORM = {48: "aesenc128kl", 64: "aesenc256kl"}  # by the handle's size: what the call is judged as


def ctr(machine, processor, cpu, handle, counter, buffer):
    """The CPU record and the buffer after it."""
    m = machine_from(machine)
    refuse_if(processor >= m.count, 3)
    cpu = cpu_from(cpu)
    refuse_if(len(buffer) > BUFFER_LIMIT or len(handle) not in SINGLE_FORM or len(counter) != COUNTER_SIZE, 18)
    i = Instruction(SINGLE_FORM[len(handle)], lock=False, operands=[], length=0)
    refuse_if(undefined(m, cpu, i), 10)
    refuse_if(cpu.control & CR0_TS, 11)
    key = opened(m, processor, cpu, i, handle)
    return bytes(cpu.bytes), buffer if key is None else key_locker.ctr(key, counter, buffer)


# ---- CPUID, by 343965-001US, chapter 2


def cpuid(machine, cpu, leaf, subleaf):
    """EAX, EBX, ECX and EDX."""
    m = machine_from(machine)
    control = cpu_from(cpu).control

    def has(feature):
        return int(m.features & feature != 0)

    if leaf == 7 and subleaf == 0:
        return 0, 0, has(KL) << 23, 0
    if leaf == 0x19 and has(KL):
        aeskle = int(has(FIRMWARE) and control & CR4_KL != 0)
        return 0b111, aeskle | has(WIDE) << 2 | has(BACKUP) << 4, has(NO_BACKUP) | has(RANDOM_SOURCE) << 1, 0
    return 0, 0, 0, 0


# ---- the other calls

COPY_STATUS, BACKUP_STATUS, COPY_OUT, COPY_IN = 0x990, 0x991, 0xD91, 0xD92


def power_on(count, features, lent=bytes(MACHINE_SIZE)):
    refuse_if(len(lent) != MACHINE_SIZE or not 1 <= count <= PROCESSOR_LIMIT or features > ALL_FEATURES, 1)
    return Machine(count, features).to_bytes()


def register_call(machine, processor, cpl):
    m = machine_from(machine)
    refuse_if(processor >= m.count, 3)
    refuse_if(cpl > 3, 5)
    refuse_if(cpl > 0 or not m.features & KL or not m.features & BACKUP, 12)
    return m


def read(machine, processor, cpl, address):
    m = register_call(machine, processor, cpl)
    refuse_if(address not in [COPY_STATUS, BACKUP_STATUS], 12)
    if address == COPY_STATUS:
        return m.copy_status[processor]
    return m.valid | m.error << 2 | m.consumed << 3


def write(machine, processor, cpl, address, value):
    m = register_call(machine, processor, cpl)
    refuse_if(address not in [COPY_OUT, COPY_IN] or value >> 1, 12)
    if value == 1 and address == COPY_OUT:
        fails = m.keys[processor].no_backup or m.pending
        if not fails:
            m.backup = m.keys[processor]
            m.pending, m.valid, m.error, m.consumed = 1, 0, 0, 0
        m.copy_status[processor] = 0 if fails else 1
    if value == 1 and address == COPY_IN:
        fails = m.backup is None
        if not fails:
            m.keys[processor] = m.backup
        m.copy_status[processor] = 0 if fails else 1
    return m.to_bytes()


GOOD, BAD = 0, 1
OLD, NEW, JUNK = 0, 1, 2


def settle(machine, code):
    m = machine_from(machine)
    refuse_if(code not in [GOOD, BAD], 2)
    if m.pending and code == GOOD:
        m.store = m.backup
        m.valid, m.error, m.consumed = 1, 0, 1
    if m.pending and code == BAD:
        m.store = None
        m.valid, m.error, m.consumed = 0, 1, 1
    m.pending = 0
    return m.to_bytes()


def taken(machine):
    m = machine_from(machine)
    if m.pending:
        m.consumed = 1
    return m.to_bytes()


def sleep(machine, code):
    m = machine_from(machine)
    refuse_if(code not in [OLD, NEW, JUNK], 2)
    woken = Machine(m.count, m.features)
    if code == JUNK:
        woken.error = 1
    else:
        woken.store = woken.backup = m.backup if m.pending and code == NEW else m.store
        woken.valid = int(woken.store is not None)
    return woken.to_bytes()


def reset(machine):
    m = machine_from(machine)
    return Machine(m.count, m.features).to_bytes()


# ---- the keyring

RECORD = 80
KEYRING_LIMIT = 65_520
HEADS = 16
LABEL_SIZE = 12
KIND_OF = {48: 0, 64: 1}  # by the handle's size


@dataclass
class Record:
    next: int
    kind: int
    label: bytes
    place: bytes  # the handle, in 64 bytes

    def to_bytes(self):
        return self.next.to_bytes(2, "little") + bytes([self.kind, 0]) + self.label + self.place

    @staticmethod
    def from_bytes(b):
        refuse_if(b[2] > 1 or b[3] != 0, 15)
        return Record(index_from(b), b[2], b[4:16], b[16:])


@dataclass
class Keyring:
    records: dict  # by index, from 1 on
    chains: list  # of indices, the sixteen in the order of their heads

    def to_bytes(self):
        heads = [chain[0] if chain else 0 for chain in self.chains]
        return b"".join(head.to_bytes(2, "little") for head in heads).ljust(RECORD, b"\0") + b"".join(r.to_bytes() for r in self.records.values())

    def chain_of(self, label):
        return self.chains[label[0] % HEADS]

    def first_with(self, label):
        return next((self.records[i] for i in self.chain_of(label) if self.records[i].label == label), None)

    def unused(self):
        return sorted(set(self.records) - set(sum(self.chains, [])))


def index_from(b):
    return int.from_bytes(b[:2], "little")


def keyring_from(b):
    """The lent bytes taken apart, with refusal 15."""
    refuse_if(len(b) % RECORD != 0 or not RECORD <= len(b) <= KEYRING_LIMIT, 15)
    heads, tail = [index_from(b[2 * k :]) for k in range(HEADS)], b[2 * HEADS : RECORD]
    records = {i: Record.from_bytes(b[RECORD * i : RECORD * (i + 1)]) for i in range(1, len(b) // RECORD)}
    refuse_if(any(tail), 15)
    refuse_if(any(i != 0 and i not in records for i in heads + [r.next for r in records.values()]), 15)
    reached = []
    chains = []
    for i in heads:
        chains.append([])
        while i != 0:
            refuse_if(i in reached, 15)
            reached.append(i)
            chains[-1].append(i)
            i = records[i].next
    return Keyring(records, chains)


def keyring_lookup(keyring, label):
    """The kind and the handle."""
    found = keyring_from(keyring)
    refuse_if(len(label) != LABEL_SIZE, 15)
    record = found.first_with(label)
    refuse_if(record is None, 16)
    return record.kind, record.place[: {0: 48, 1: 64}[record.kind]]


def keyring_add(keyring, label, handle):
    k = keyring_from(keyring)
    refuse_if(len(label) != LABEL_SIZE or len(handle) not in KIND_OF, 15)
    kind, place = KIND_OF[len(handle)], handle.ljust(64, b"\0")
    record = k.first_with(label)
    if record is not None:
        record.kind, record.place = kind, place
        return k.to_bytes()
    unused, chain = k.unused(), k.chain_of(label)
    refuse_if(not unused, 17)
    k.records[unused[0]] = Record(chain[0] if chain else 0, kind, label, place)
    chain.insert(0, unused[0])
    return k.to_bytes()
