#!/usr/bin/env python3
"""Tests keylocker-run: what make test-run runs, after make all. Programs that know nothing of it, compiled with the compiler's intrinsics or executing strings
that are made here, and its files, options and signals.

Prints a line for each test, and exits with 1 if one failed.
"""

import functools
import os
import random
import re
import shutil
import signal
import subprocess
import sys
import tempfile
import time
from pathlib import Path

import decoder
import harness
import model
from harness import PROGRAM as SIMULATOR
from harness import ROOT, STRICT, command, must, need

RUN = ROOT / "build/keylocker-run"
OBJECT = ROOT / "build/keylocker-run.so"
HERE = ROOT / "tests/run"
IWKEY = bytes(range(0x30, 0x60))
SEED = 24

# ---- programs

BUILT = Path(tempfile.mkdtemp(prefix="keylocker-run-"))
INTRINSICS = ["-mkl", "-mwidekl"]


@functools.cache
def built(name, *flags, sources=()):
    """A program of tests/run, or None where the compiler lacks the intrinsics that it is written with."""
    program = BUILT / "-".join([name, *(flag.strip("-") for flag in flags)])
    files = [HERE / f"{name}.c", *(ROOT / source for source in sources)]
    folders = [f"-I{ROOT}/{folder}" for folder in ["include", "tests/host", "run"]]
    compiled = command("gcc", "-std=gnu11", "-D_GNU_SOURCE", *STRICT, "-Wno-pedantic", "-Wno-deprecated-declarations", "-O2", *folders, *flags, *files, "-o", program)
    if compiled.returncode != 0 and set(INTRINSICS) & set(flags) and "unrecognized command" in compiled.stderr:
        return None
    must(compiled, 0, f"gcc {name}")
    return program


def client():
    return built("client", *INTRINSICS, "-pthread", sources=("tests/host/aes.c", "tests/host/faults.c"))


def run(*args, **options):
    return command(RUN, *args, **options)


def with_iwkey(tmp):
    """The options for a machine that has IWKEY."""
    (tmp / "iwkey").write_bytes(IWKEY)
    return ["--iwkey", tmp / "iwkey"]


# ---- each instruction against the model in Python, with all registers

REGION, NO_ACCESS, BEHIND_END, CODE, GS_BASE = 0x2000_0000, 0x2000_4000, 0x2000_8000, 0x2001_0000, 0x1000
PAGE = 4096
FS, GS, IGNORED = 0x64, 0x65, [0x26, 0x2E, 0x36, 0x3E]
FLAGS = model.SIX_FLAGS | 1 << 10  # and DF


class Rejected(Exception):
    """Another string, or other registers, are to be drawn."""


def machine_with(iwkey):
    m = model.machine_from(model.power_on(1, model.ALL_FEATURES))
    m.keys[0] = model.IWKey(iwkey[:16], iwkey[16:])
    return m


def random_string(draw, form):
    """Of that form, with any operands."""
    rex = [draw.randrange(0x40, 0x50)] if draw.random() < 0.6 else []
    reg = draw.randrange(8) if form.reg is None else form.reg
    rm, mod = draw.randrange(8), draw.randrange(3) if form.memory else 3
    place = []
    if form.memory:
        sib = draw.randrange(256)
        place = [sib] if rm == 4 else []
        no_base = mod == 0 and (sib & 7 if rm == 4 else rm) == 5
        place += draw.randbytes(4 if no_base or mod == 2 else mod)
    size = [0x67] if draw.random() < 0.2 else []
    return bytes([*size, 0xF3, *rex, 0x0F, 0x38, form.opcode, mod << 6 | reg << 3 | rm, *place])


def as_written(draw, string, segment):
    """The string as a program may have it: prefixes in another order, ignored ones among them, a segment."""
    count = string.index(0xF3) + 1
    prefixes = [*string[:count]] + ([segment] if segment else []) + draw.choices(IGNORED, k=draw.choice([0, 0, 1, 3]))
    draw.shuffle(prefixes)
    return bytes(prefixes) + string[count:]


def random_record(draw, place):
    cpu = model.Cpu()
    cpu.bytes[: 256 + 128] = draw.randbytes(256 + 128)
    cpu.rip = place
    cpu.rflags = 0x202 | draw.randrange(2**12) & FLAGS
    cpu.bytes[400] = 3
    cpu.bytes[401] = model.CR4_KL | model.CR4_OSFXSR
    return cpu


def move_to(cpu, i, string, target):
    """Changes a register, or the displacement of an operand that has none, so that the handle is there."""
    difference = target - model.effective_address(cpu, i)[0]
    names = re.findall(r"[\[+]([a-z][a-z0-9]*)(?:\*(\d))?", i.memory)
    registers = [(i.address_size.registers.index(name), int(scale or 1)) for name, scale in names if name not in ["rip", "eip", "eiz"]]
    if not registers:
        displacement = int.from_bytes(string[-4:], "little", signed=True) + difference
        string = string[:-4] + (displacement % 2**32).to_bytes(4, "little")
    else:
        number, scale = registers[0]
        cpu.set_register(number, cpu.register(number) + difference // sum(s for n, s in registers if n == number))
    if model.effective_address(cpu, model.decode(string))[0] != target % 2**64:
        raise Rejected
    return string


def random_target(draw, size):
    """Where a handle can be read, mostly; where the last bytes or all cannot, or no address is."""
    inside = REGION + draw.randrange(2 * PAGE - size + 1)
    return draw.choice(
        [inside] * 6
        + [REGION + 2 * PAGE - size, REGION + 2 * PAGE - size + draw.randrange(1, size), REGION + PAGE - size // 2]
        + [NO_ACCESS + draw.randrange(PAGE - size), NO_ACCESS - draw.randrange(1, size), BEHIND_END + draw.randrange(PAGE - size)]
        + [0, 8, 2**47 - size, 2**47 - size // 2, 2**47, 2**63 + draw.randrange(2**62), 2**64 - 2**47 - 1, 2**64 - 2**47, 2**64 - size]
    )


def random_handle(draw, i):
    """Mostly of that size, under the machine's IWKey, and legal at CPL 3 in one direction at least."""
    size = draw.choice([i.size] * 5 + [48 - i.size])
    aad = bytes([draw.choice([0, 0, 0, 1, 2, 4]), 0, 0, {16: 0, 32: 1}[size]]) + bytes(12)
    handle = bytearray(model.key_locker.wrap(IWKEY[:16], IWKEY[16:], aad, draw.randbytes(size)))
    if draw.random() < 0.15:
        handle[draw.randrange(len(handle))] ^= 1 << draw.randrange(8)
    return bytes(handle)


def first_unreadable(target, size):
    """The address and what Linux says of it, or None."""
    for address in range(target, target + size):
        if not REGION <= address < REGION + 2 * PAGE:
            code = (signal.SIGSEGV, 1)
            if NO_ACCESS <= address < NO_ACCESS + PAGE:
                code = (signal.SIGSEGV, 2)
            if BEHIND_END <= address < BEHIND_END + PAGE:
                code = (signal.SIGBUS, 2)
            return *code, address
    return None


def random_case(draw, form, fs_base):
    """A CPU record, a string as written, an address and bytes to put there, and what comes of it: a record, or a signal with code and address."""
    string = random_string(draw, form)
    i = model.decode(string)
    segment = draw.choice([None] * 6 + [FS, GS]) if form.memory else None
    base = {None: 0, FS: fs_base, GS: GS_BASE}[segment]
    if base == fs_base and b"\x67" in string[:1]:
        raise Rejected
    written = as_written(draw, string, segment)
    if len(written) > 15:
        raise Rejected
    cpu = random_record(draw, CODE + len(written) - len(string))  # RIP-relative places count from the next instruction
    at, handle, unreadable = REGION, b"", None
    if form.memory:
        target = random_target(draw, 32 + i.size)
        if i.address_size.bits == 32 and target >= 2**32:
            raise Rejected
        string = move_to(cpu, i, string, (target - base) % 2**64)
        written = written[:-4] + string[-4:]  # a displacement may be another
        i = model.decode(string)
        handle = random_handle(draw, i).ljust(32 + i.size, b"\0")[: 32 + i.size]
        unreadable = first_unreadable(target, 32 + i.size)
        at, handle = (REGION, b"") if unreadable else (target, handle)
        stack = model.effective_address(cpu, i)[1] and not segment
        if not all(model.canonical(place % 2**64) for place in [target, target + 31 + i.size]):
            unreadable = (signal.SIGBUS if stack else signal.SIGSEGV, 128, 0)
    if form.mnemonic.startswith("encodekey") and draw.random() < 0.8:
        cpu.set_register(model.r32_number(i.operands[1]), draw.randrange(8) | draw.randrange(2**32) << 32)
    before = bytes(cpu.bytes)
    return before, written, at, handle, unreadable or after(cpu, i, at, handle)


def after(cpu, i, at, handle):
    m = machine_with(IWKEY)
    if i.load or (i.encode and cpu.register(model.r32_number(i.operands[1])) % 2**32 >> 3):
        return signal.SIGSEGV, 128, 0
    if i.encode:
        model.encode_key(m, 0, cpu, i)
    else:
        model.use(m, 0, cpu, i, handle)
    return bytes(cpu.bytes)


def undefined_cases(draw):
    """LOCK, and strings that no instruction has: #UD."""
    for string in ["f0f30f38dc00", "f0f30f38fac1", "67f0f30f38d800", "f30f38d820", "f30f38ddc0", "0f0b", "f30f38fa00"]:
        yield bytes(random_record(draw, CODE).bytes), bytes.fromhex(string), REGION, b"", (signal.SIGILL, 2, CODE)


def answers(tmp, args, cases, before=()):
    """The program's lines, with what has to be there."""
    with subprocess.Popen([*before, RUN, *with_iwkey(tmp), *args], stdin=subprocess.PIPE, stdout=subprocess.PIPE, text=True) as process:
        fs_base = int(process.stdout.readline(), 16)
        for record, string, at, data, expected in cases(fs_base):
            process.stdin.write(f"{record.hex()} {string.hex()} {at:x} {data.hex() or '-'}\n")
            process.stdin.flush()
            yield record, string, expected, process.stdout.readline().split()
        process.stdin.close()
    need(process.returncode == 0, "registers: exit status", process.returncode)


def compare(record, string, expected, line):
    if isinstance(expected, bytes):
        wanted = bytearray(expected)
        wanted[384:392] = len(string).to_bytes(8, "little")
        wanted = ["done", bytes(wanted[:400]).hex()]
    else:
        wanted = ["signal", *map(str, map(int, expected[:2])), f"{expected[2]:x}", (record[:384] + bytes(8) + record[392:400]).hex()]
    found = [*line[:-1], line[-1][:800]] if line else line
    need(found == wanted, string.hex(" "), "\n ", record.hex(), "\n ", *found, "\n ", *wanted)


def random_cases(count, seed):
    """The same number of each form."""

    def cases(fs_base):
        draw = random.Random(seed)
        yield from undefined_cases(draw)
        for n in range(count):
            while True:
                try:
                    yield random_case(draw, decoder.FORMS[n % len(decoder.FORMS)], fs_base)
                    break
                except Rejected:
                    pass

    return cases


def test_registers(tmp):
    """Random strings with random registers, RSP too: registers, signals and their places are the model's."""
    kinds = set()
    for record, string, expected, line in answers(tmp, [built("registers", "-Wl,-z,now")], random_cases(900, SEED)):
        compare(record, string, expected, line)
        kinds.add("done" if isinstance(expected, bytes) else tuple(map(int, expected[:2])))
    need(kinds == {"done", (4, 2), (11, 1), (11, 2), (11, 128), (7, 2), (7, 128)}, "not all kinds of answers:", kinds)


def test_small_stack(tmp):
    """On a stack for signals that has next to no room for a handler."""
    for record, string, expected, line in answers(tmp, [built("registers", "-Wl,-z,now"), "2048"], random_cases(60, SEED + 1)):
        compare(record, string, expected, line)


def test_sandbox(tmp):
    """Where memory has to be read without the system call for that; the same signals come."""
    sandbox = [built("sandbox"), "memory"]
    for record, string, expected, line in answers(tmp, [built("registers", "-Wl,-z,now")], random_cases(200, SEED + 2), sandbox):
        compare(record, string, expected, line)


# ---- programs with intrinsics

NO_INTRINSICS = "skipped: this gcc lacks the intrinsics of Key Locker"


def needs_client(test):
    @functools.wraps(test)
    def tested(tmp):
        return test(tmp) if client() else NO_INTRINSICS

    return tested


def counts(said):
    """What --count printed: for each kind how many were done, left ZF 1, became a signal."""
    rows = re.findall(r"^keylocker-run:   (\w+) +(\d+)(?:, of which (\d+) left ZF 1)?(?:; (\d+) more became a signal)?$", said, re.M)
    return {name: tuple(int(number or 0) for number in numbers) for name, *numbers in rows}


@needs_client
def test_client(tmp):
    """All instructions by a program's intrinsics: single and wide, operands of all kinds, handles that must not open; none of it is traced or lost."""
    result = must(run("--count", client(), "rounds", 40), 0, "client rounds")
    found = counts(result.stderr)
    need(sorted(found) == sorted({form.mnemonic for form in decoder.FORMS} - {"loadiwkey"}), found)
    need(found["encodekey128"] == found["encodekey256"] == (82, 0, 0) and found["aesdecwide256kl"] == (41, 0, 0), found)
    need(found["aesenc128kl"][0] == 41 * 12 and found["aesenc128kl"][1] > 80 and result.stdout == "", found)
    need(f"keylocker-run: {sum(done for done, *_ in found.values())} instructions emulated\n" in result.stderr, result.stderr)


def test_example(tmp):
    """examples/intrinsics.c, in C and in C++. Not by clang 14, which clears the block where the handle opens."""
    found = []
    for compiler in ["gcc", "g++"]:
        language = ["-x", "c++"] if compiler == "g++" else []
        command_line = [compiler, *STRICT, "-O2", "-mkl", *language, ROOT / "examples/intrinsics.c", "-o", tmp / compiler]
        if shutil.which(compiler) and command(*command_line).returncode == 0:
            need(must(run(tmp / compiler), 0, compiler).stdout == "69c4e0d86a7b0430d8cdb78070b4c55a\n", compiler)
            found.append(compiler)
    need(found or not client(), "the example does not compile")
    return "passed: " + ", ".join(found) if found else NO_INTRINSICS


@needs_client
def test_without(tmp):
    """The same program by itself is ended by SIGILL."""
    need(command(client(), "rounds", 1).returncode == -signal.SIGILL, "is this a processor that has Key Locker?")


@needs_client
def test_threads(tmp):
    for count, rounds in [(2, 60), (16, 10)]:
        must(run(client(), "threads", count, rounds), 0, f"{count} threads")


@needs_client
def test_fork(tmp):
    found = counts(must(run("--count", client(), "fork", 30), 0, "client fork").stderr)
    need(found["encodekey256"][0] == 2 + 1 + 2 * 60 and found["aesencwide128kl"][0] == 1 + 2 * 30, "counts of both processes:", found)


@needs_client
def test_handlers(tmp):
    """The program's own handlers, which it leaves by jumps; instructions inside of them; at the end it has none."""
    result = must(run("--count", client(), "handlers"), -signal.SIGILL, "client handlers")
    need(counts(result.stderr)["loadiwkey"] == (0, 0, 3) and result.stdout == "all\n", result.stdout, result.stderr)
    for how in ["loadiwkey", "blocked", "ignored"]:
        must(run(client(), how, timeout=20), -signal.SIGSEGV, f"client {how}")


@needs_client
def test_cleared(tmp):
    """The stack that the library was called on holds nothing afterwards."""
    must(run(client(), "cleared"), 0, "client cleared")


def test_library(tmp):
    """A library that a program is linked with may use the instructions in its constructor."""
    (tmp / "library.c").write_text("""
#include <stdio.h>
__attribute__((constructor)) static void early(void)
{
    __asm__ volatile("xor %%ecx, %%ecx\\n\\t.byte 0xF3, 0x0F, 0x38, 0xFA, 0xC9" : : : "rcx", "xmm0", "xmm1", "xmm2", "xmm4", "xmm5", "xmm6", "cc");
}
int value(void) { return 7; }
""")
    (tmp / "main.c").write_text("int value(void); int main(void) { return value(); }\n")
    must(command("gcc", "-shared", "-fPIC", "library.c", "-o", "library.so", cwd=tmp), 0, "gcc library.c")
    must(command("gcc", "main.c", "./library.so", "-o", "main", cwd=tmp), 0, "gcc main.c")
    need(counts(must(run("--count", "./main", cwd=tmp), 7, "a library's constructor").stderr) == {"encodekey128": (1, 0, 0)}, "not emulated")


@needs_client
def test_odd(tmp):
    """Children that have their parent's memory, C11's threads, pages that may only be written, alignment that is checked, functions of System V, a program that has
    functions of the C library's names itself."""
    must(run(client(), "odd"), 0, "client odd")
    must(command("gcc", "-O2", "-mkl", HERE / "own_names.c", "-o", tmp / "own"), 0, "gcc own_names.c")
    must(run(tmp / "own"), 0, "own_names")


@needs_client
def test_closed(tmp):
    """A program that closes what it did not open."""
    must(run("--machine", tmp / "machine", "--trace", tmp / "trace", client(), "closed"), 0, "client closed")
    must(command(SIMULATOR, "--quiet", "--strict", tmp / "trace"), 0, "its trace")


@needs_client
def test_execute(tmp):
    """What the program executes in its place, and what a shell starts, is run so, too."""
    for program in [[client(), "execute", client(), "rounds", 1], ["sh", "-c", f"{client()} rounds 1; {client()} rounds 1 | cat && exit 0"]]:
        need(counts(must(run("--count", *program), 0, program).stderr)["encodekey128"][0] >= 4, program)


# ---- machines


@needs_client
def test_machine(tmp):
    """Handles survive runs with the same machine, and no others; two programs share one machine at the same time."""
    machine, handle = tmp / "machine", tmp / "handle"
    must(run("-m", machine, client(), "encode", handle), 0, "client encode")
    need(oct(machine.stat().st_mode & 0o777) == "0o600", oct(machine.stat().st_mode))
    before = machine.read_bytes()
    for args, status in [(["-m", machine], 0), (["--machine", tmp / "other"], 1), ([], 1), ([f"--machine={machine}"], 0)]:
        must(run(*args, client(), "use", handle), status, f"client use, with {args}")
    must(run("-m", "machine", "sh", "-c", f"cd / && {client()} use {handle}", cwd=tmp), 0, "a relative path, and another folder")
    processes = [subprocess.Popen([RUN, "-m", machine, client(), "rounds", "60"]) for _ in range(2)]
    must(run("-m", machine, client(), "use", handle), 0, "client use beside others")
    need([process.wait() for process in processes] == [0, 0], "two processes at once")
    need(machine.read_bytes()[:1024] == before[:1024], "the machine was changed")
    need(sorted(file.name for file in tmp.iterdir()) == ["handle", "machine", "other"], *tmp.iterdir())


def test_first(tmp):
    """When several make the machine at once, all have the one that is there in the end."""
    for n in range(5):
        folder = tmp / f"folder{n}"
        folder.mkdir()
        traces = [tmp / f"trace{n}-{i}" for i in range(10)]
        processes = [subprocess.Popen([RUN, "-m", folder / "machine", "-t", trace, "true"], stderr=subprocess.DEVNULL) for trace in traces]
        need([process.wait() for process in processes] == [0] * 10, "exit statuses")
        found = {trace.read_text().splitlines()[-1] for trace in traces}
        machine = block_of(folder / "machine").hex().rstrip("0")
        need(len(found) == 1 and f"machine = {machine}" in [*found][0], "different machines:", len(found))
        need([file.name for file in folder.iterdir()] == ["machine"], *folder.iterdir())


def block_of(file):
    return file.read_bytes()[40 : 40 + model.MACHINE_SIZE]


def test_iwkey(tmp):
    """Given as bytes and as digits it is the machine's; without it each new machine has another. What is no IWKey is refused."""
    for n, text in enumerate([IWKEY, IWKEY.hex().encode(), b" " + IWKEY[:16].hex().upper().encode() + b"\n" + IWKEY[16:].hex(" ").encode() + b"\r\n"]):
        (tmp / "iwkey").write_bytes(text)
        must(run("-m", tmp / f"machine{n}", "-k", tmp / "iwkey", "true"), 0, text)
        need(block_of(tmp / f"machine{n}") == machine_with(IWKEY).to_bytes(), "another machine", n)
        must(run("-m", tmp / f"machine{n}", "-k", tmp / "iwkey", "true"), 0, "the same again")
    for text in [b"", IWKEY[:47], IWKEY + b"\0", IWKEY.hex()[:48].encode(), IWKEY.hex()[:95].encode(), IWKEY.hex().encode() + b"0", IWKEY.hex().encode() + b"\0", b"g" * 96]:
        (tmp / "bad").write_bytes(text)
        said = must(run("-m", tmp / "none", "-k", tmp / "bad", "true"), 125, text).stderr
        need("not an IWKey: 48 bytes or 96 hexadecimal digits" in said and not (tmp / "none").exists(), said)
    (tmp / "other").write_bytes(IWKEY[::-1])
    before = (tmp / "machine0").read_bytes()
    need("another IWKey" in must(run("-m", tmp / "machine0", "-k", tmp / "other", "true"), 125, "another IWKey").stderr, "not told")
    need((tmp / "machine0").read_bytes() == before, "overwritten")
    for name in ["random0", "random1"]:
        must(run("-m", tmp / name, "true"), 0, name)
    need(len({block_of(tmp / name)[2:50] for name in ["random0", "random1", "machine0"]}) == 3, "random IWKeys are alike")


def test_damaged(tmp):
    """A message, status 125, the program is not run, and the file stays as it is."""
    must(run("-m", tmp / "machine", "true"), 0, "a new machine")
    good = (tmp / "machine").read_bytes()
    changed = [good[:n] + bytes([good[n] ^ 1]) + good[n + 1 :] for n in [0, 5, 23, 32, 39, 40, 41, 42, 60, 89, 90, 91, 100, 963]]
    cut = [b"", good[:1], good[:100], good[:963], good[:4095], good + b"\0", bytes(4096), b"text\n" * 1000]
    for bad in changed + cut:
        (tmp / "machine").write_bytes(bad)
        result = must(run("-m", tmp / "machine", "touch", tmp / "ran"), 125, "damaged")
        need(re.search("machine: (damaged|not a machine of keylocker-run).*It is left as it is$", result.stderr, re.M), result.stderr)
        need((tmp / "machine").read_bytes() == bad and not (tmp / "ran").exists(), "overwritten, or the program was run")
    (tmp / "machine").write_bytes(good)
    must(run("-m", tmp / "machine", "true"), 0, "as it was")
    for path in [tmp, tmp / "no/machine", "/proc/version"]:
        need(f"keylocker-run: {path}" in must(run("-m", path, "true"), 125, path).stderr, path)


def test_mode(tmp):
    """A machine that others can read is told of."""
    must(run("-m", tmp / "machine", "true"), 0, "a new machine")
    (tmp / "machine").chmod(0o644)
    need("lets others" in must(run("-m", tmp / "machine", "true"), 0, "0644").stderr, "not told")


def lock_of(machine):
    return int.from_bytes(machine.read_bytes()[1024:1028], "little")


def test_lock(tmp):
    """Freed where its holder dies; one that stopped holds nobody up for long."""
    holder = built("holder", "-pthread", sources=("run/lock.c", "run/self.c", "run/map.c"))
    must(command(holder, "dies", timeout=60), 0, "holder dies")
    if not client():
        return NO_INTRINSICS
    machine = tmp / "machine"
    must(run("-m", machine, "true"), 0, "a new machine")
    stopped = subprocess.Popen([holder, "stops", machine])
    try:
        os.waitid(os.P_PID, stopped.pid, os.WSTOPPED)
        must(run("-m", machine, client(), "rounds", 3, timeout=30), 0, "beside one that stopped")
        need(lock_of(machine) & 0x3FFFFFFF == stopped.pid, "it does not hold the lock any more")
        (tmp / "copy").write_bytes(machine.read_bytes())
        must(run("-m", tmp / "copy", "true"), 0, "a copy that was made while it was locked")
        need(lock_of(tmp / "copy") == 0, "the lock of the copy stays")
    finally:
        stopped.send_signal(signal.SIGCONT)
        stopped.wait()
    need(lock_of(machine) == 0, "the lock is not free")


@needs_client
def test_killed(tmp):
    """One that is killed at any moment leaves the machine to the others."""
    other = subprocess.Popen([RUN, "-m", tmp / "machine", client(), "busy"])
    for _ in range(25):
        killed = subprocess.Popen([RUN, "-m", tmp / "machine", client(), "busy"])
        time.sleep(0.02 + random.random() / 50)
        killed.kill()
        need(killed.wait() == -signal.SIGKILL, killed.returncode)
    other.terminate()
    need(other.wait() == -signal.SIGTERM, other.returncode)
    must(run("-m", tmp / "machine", client(), "rounds", 1, timeout=30), 0, "afterwards")


# ---- traces


@needs_client
def test_trace(tmp):
    """What several threads and processes did is replayed, call for call; refused instructions are comments. Nobody else can read it."""
    (tmp / "trace").write_text("something longer than that " * 9999)
    (tmp / "trace").chmod(0o644)
    result = must(run("--count", "-t", tmp / "trace", "sh", "-c", f"{client()} fork 3 & {client()} threads 3 2; wait; {client()} loadiwkey"), 139, "traced")
    text = (tmp / "trace").read_text()
    need(oct((tmp / "trace").stat().st_mode & 0o777) == "0o600", oct((tmp / "trace").stat().st_mode))
    need("the trace in" in result.stderr and "holds the IWKey and the keys" in result.stderr, result.stderr)
    replayed = must(command(SIMULATOR, "--quiet", "--strict", tmp / "trace"), 0, "the trace").stdout
    calls = sum(done for done, *_ in counts(result.stderr).values())
    need(f" {calls} calls, 0 of them refused" in replayed and re.search(r"(\d+) expectations, 0 of them not met", replayed)[1] > str(calls), replayed)
    need(len(re.findall(r"^# process \d+: loadiwkey xmm\d+, xmm\d+: SIGSEGV$", text, re.M)) == 1, "no line of the refused instruction")
    need(text.count("\nmachine = ") == 1 and "\ncpu 0 cpl 3 encodekey256 " in text and re.search("-> result # process \\d+, thread \\d+: aes", text), text[-900:])


@needs_client
def test_trace_lost(tmp):
    """A trace that cannot be written is told of: at the start, and later."""
    need("/none" in must(run("-t", tmp / "none/trace", "true"), 125, "no folder").stderr, "not told")
    before = os.stat("/dev/null").st_mode
    need("has to be a file" in must(run("-t", "/dev/null", "true"), 125, "/dev/null").stderr and os.stat("/dev/null").st_mode == before, "/dev/null")
    for args in [["-m", tmp / "machine", "-t", tmp / "machine"], [*with_iwkey(tmp), "-t", tmp / "iwkey"]]:
        must(run("-m", tmp / "machine", "true"), 0, "a machine")
        kept = [(tmp / name).read_bytes() for name in ["machine", "iwkey"] if (tmp / name).exists()]
        need("would overwrite keys" in must(run(*args, "true"), 125, args).stderr, args)
        need(kept == [(tmp / name).read_bytes() for name in ["machine", "iwkey"] if (tmp / name).exists()], "overwritten")
    result = must(run("-t", tmp / "trace", "sh", "-c", f"rm {tmp}/trace; {client()} rounds 1"), 0, "removed")
    need("lines of the trace are lost" in result.stderr, result.stderr)


# ---- CPUID


def answered(*args):
    return [int(word, 16) for word in must(command(*args), 0, args).stdout.split()]


def test_cpuid(tmp):
    """Where CPUID faults, leaf 7 and leaf 0x19 have the machine's bits over the host's, and all others are the host's."""
    cpuid = built("cpuid")
    faulting = [built("sandbox"), "cpuid", RUN]
    need("Here: CPUID is answered with Key Locker.\n" in command(*faulting, "--help").stdout, "--help where CPUID faults")
    if command(*faulting, cpuid, "answer", "1", "0").returncode == 5:
        return "skipped: no process can trace another here"
    highest = answered(cpuid, "host", "0", "0")[0]
    for leaf, subleaf in [(0, 0), (1, 0), (2, 0), (4, 1), (7, 0), (7, 1), (0xD, 0), (0x18, 0), (0x19, 0), (0x19, 5), (0x8000_0000, 0), (0x8000_0002, 0)]:
        host = answered(cpuid, "host", f"{leaf:x}", f"{subleaf:x}")
        machine = model.cpuid(machine_with(IWKEY).to_bytes(), bytes(random_record(random.Random(0), 0).bytes), leaf, subleaf)
        found = answered(*faulting, cpuid, "answer", f"{leaf:x}", f"{subleaf:x}")
        if leaf == 0:
            host[0] = max(highest, 0x19)
        if leaf == 0x19 or highest < leaf < 0x19:
            host = [*machine]
        if (leaf, subleaf) == (7, 0):
            host[2] |= machine[2]
        if leaf == 1:  # which processor it was
            host[1], found[1] = host[1] % 2**24, found[1] % 2**24
        need(found == host, hex(leaf), subleaf, [*map(hex, found)], "not", [*map(hex, host)])
    hosts = command(*faulting, "--host-cpuid", cpuid, "answer", "19", "0")
    need(hosts.returncode == 6, "with --host-cpuid a CPUID that faults is the program's own")
    if client():  # and with another's handlers of SIGSEGV
        must(command(*faulting, client(), "rounds", 3), 0, "client rounds where CPUID faults")
        need(must(command(*faulting, client(), "handlers"), -signal.SIGILL, "handlers where CPUID faults").stdout == "all\n", "handlers where CPUID faults")
        for how in ["loadiwkey", "blocked", "ignored"]:
            must(command(*faulting, client(), how, timeout=20), -signal.SIGSEGV, f"client {how} where CPUID faults")


# ---- the front program


def test_usage(tmp):
    for args, status, said in [
        ([], 125, "no PROGRAM is given"),
        (["--machine"], 125, "requires an argument"),
        (["--none", "true"], 125, "unrecognized option"),
        (["-k", tmp / "none", "true"], 125, "No such file"),
        ([tmp / "none"], 127, "No such file"),
        (["no-such-program"], 127, "no-such-program"),
        ([tmp], 126, "ermission denied"),
        ([HERE / "client.c"], 126, "ermission denied"),
    ]:
        result = must(run(*args), status, args)
        need(said in result.stderr and result.stdout == "", args, result.stderr)
    need(re.fullmatch(r"keylocker-run \d+\.\d+\.\d+\n", run("--version").stdout), "--version")
    need(run("--help").stdout.startswith("usage: keylocker-run "), "--help")
    for args in ["--help", "--version"]:
        with open("/dev/full", "w") as full:
            need(subprocess.run([RUN, args], stdout=full).returncode == 125, args, "is lost")


def gone(path):
    """In the end: what removes it waits for the program's end, as others do."""
    for _ in range(200):
        if not path.exists():
            return True
        time.sleep(0.05)
    return False


def test_programs(tmp):
    """Arguments, input, output, environment and exit status are the program's own."""
    result = must(run("sh", "-c", "cat; echo $0 $LD_PRELOAD >&2; exit 7", "--count", input="words\n"), 7, "sh")
    need(result.stdout == "words\n" and result.stderr.split() == ["--count", str(OBJECT)], result)
    need(must(run("env", env=os.environ | {"LD_PRELOAD": "libc.so.6"}), 0, "env").stdout.count(f"LD_PRELOAD={OBJECT}:libc.so.6\n") == 1, "LD_PRELOAD")
    (tmp / "script").write_text("exit 3\n")
    (tmp / "script").chmod(0o755)
    must(run(tmp / "script"), 3, "a script without a first line")
    inner = must(run("--count", "--trace", tmp / "trace", RUN, "printenv"), 0, "keylocker-run in itself").stdout
    need("KEYLOCKER_RUN_MACHINE=" in inner and "KEYLOCKER_RUN_TRACE=" not in inner and inner.count(str(OBJECT)) == 1, inner)
    for options in [[], ["--count"]]:
        python = f"import os, signal; signal.signal(signal.SIGCHLD, signal.SIG_IGN); os.execv({str(RUN)!r}, ['run', *{options!r}, 'false'])"
        must(command(sys.executable, "-c", python), 1, f"children are ignored {options}")
    must(run("sh", "-c", "exit 4", env={}), 4, "without PATH")
    for number in [0, signal.SIGTERM, signal.SIGKILL, signal.SIGSEGV, signal.SIGILL]:
        machine = must(run("sh", "-c", f"ls $KEYLOCKER_RUN_MACHINE && kill -{number:d} $$"), -number, f"ended by {number}").stdout.strip()
        need(machine.startswith("/") and gone(Path(machine).parent), machine, "stays")


@needs_client
def test_later_damage(tmp):
    """A machine that is damaged, or gone, while programs use it is told of, and the instruction is #UD; programs without such instructions go on."""
    machine = tmp / "machine"
    must(run("-m", machine, "true"), 0, "a new machine")
    damage = f"printf '\\377' | dd of={machine} bs=1 seek=40 conv=notrunc status=none"
    result = must(run("-m", machine, "sh", "-c", f"{damage}; {client()} quiet && exec {client()} rounds 1"), -signal.SIGILL, "damaged")
    need(f"keylocker-run: the machine has been damaged: {machine}\n" == result.stderr, result.stderr)
    machine.unlink()
    result = must(run("-m", machine, "sh", "-c", f"rm {machine}; {client()} quiet && exec {client()} rounds 1"), -signal.SIGILL, "gone")
    need(result.stderr.startswith("keylocker-run: the machine cannot be opened; ") and f": {machine} (no such file)\n" in result.stderr, result.stderr)


def test_forwarded(tmp):
    """Signals that a process sends keylocker-run reach the program."""
    program = "trap 'echo USR1; exit 5' USR1; trap 'echo TERM; exit 6' TERM; echo ready; for i in $(seq 200); do sleep 0.05; done"
    for number, status, options in [(signal.SIGUSR1, 5, []), (signal.SIGTERM, 6, []), (signal.SIGUSR1, 5, ["-c"]), (signal.SIGTERM, 6, ["-c"])]:
        with subprocess.Popen([RUN, *options, "sh", "-c", program], stdout=subprocess.PIPE, stderr=subprocess.DEVNULL, text=True) as process:
            need(process.stdout.readline() == "ready\n", "not ready")
            process.send_signal(number)
            need(process.stdout.read() == f"{number.name[3:]}\n" and process.wait() == status, number, process.returncode)


def test_its_own(tmp):
    """Without --count the program is the process that was started: its children are its own, and it stops and goes on like any other."""
    python = "import os, sys; print(os.getpid()); os.wait()"
    result = run(sys.executable, "-c", python, timeout=20)
    need("ChildProcessError" in result.stderr, "it has a child that is not its own", result.stderr)
    with subprocess.Popen([RUN, "sh", "-c", "kill -STOP $$; exit 9"]) as process:
        stopped = os.waitid(os.P_PID, process.pid, os.WSTOPPED)
        process.send_signal(signal.SIGCONT)
        need(stopped.si_status == signal.SIGSTOP and process.wait() == 9, process.returncode)


def test_started_oddly(tmp):
    """Signals that are blocked or ignored, a timer, and standard files that are closed."""
    for options in [[], ["--count"]]:
        python = f"import os, signal; signal.alarm(1); os.execv({str(RUN)!r}, ['run', *{options!r}, 'sleep', '20'])"
        must(command(sys.executable, "-c", python, timeout=15), -signal.SIGALRM, f"alarm {options}")
        ignored = f"trap '' HUP; {RUN} {' '.join(options)} sh -c 'kill -HUP $$; exit 3'"
        must(command("sh", "-c", ignored), 3, f"SIGHUP ignored {options}")
        machine = tmp / f"machine{len(options)}"
        for _ in range(2):
            must(command("sh", "-c", f"{RUN} -m {machine} {' '.join(options)} true <&- >&- 2>&-"), 0, "closed")
        asks = [sys.executable, "-c", "import os, sys\ntry: os.fstat(2)\nexcept OSError: sys.exit(8)"]
        must(command("sh", "-c", 'exec "$@" 2>&-', "sh", RUN, "-m", machine, *options, *asks), 8, "standard error, which was closed")
    (tmp / "other").write_bytes(IWKEY)
    before = machine.read_bytes()
    must(command("sh", "-c", f"{RUN} -m {machine} -k {tmp}/other true 2>&-"), 125, "another IWKey, and nowhere to say so")
    need(machine.read_bytes() == before, "a message was written into the machine")
    must(command("sh", "-c", f"flock {machine} {RUN} -m {machine} true", timeout=20), 0, "a machine that somebody has locked")


def test_not_for(tmp):
    """Programs that no object can be loaded into are told of."""
    (tmp / "main.c").write_text("int main(void) { return 0; }\n")
    must(command("gcc", "-static", tmp / "main.c", "-o", tmp / "static"), 0, "gcc -static")
    need("linked statically" in must(run(tmp / "static"), 126, "a static program").stderr, "not told")
    (tmp / "other").write_bytes(bytes.fromhex("7f454c4601010100") + bytes(200))
    (tmp / "other").chmod(0o755)
    need("not a program for x86-64" in must(run(tmp / "other"), 126, "another kind of program").stderr, "not told")


def test_symbols(tmp):
    """Nothing of the object can be seen from outside but what it stands in front of; it is bound at once."""
    names = {line.split()[-1] for line in command("nm", "-D", "--defined-only", OBJECT).stdout.splitlines()}
    signals = {"sigaction", "signal", "bsd_signal", "ssignal", "sysv_signal", "__sysv_signal", "sigprocmask", "pthread_sigmask", "sigsuspend"}
    systems = {"sigset", "sigignore", "sighold", "__ppoll_chk", "epoll_pwait2", "thrd_create"}
    need(names == signals | systems | {"pselect", "ppoll", "epoll_pwait", "pthread_create"}, names)
    used = {line.split()[-1].split("@")[0] for line in command("nm", "-D", "--undefined-only", OBJECT).stdout.splitlines() if " U " in line}
    need(used == {"dlsym", "__register_atfork", "__sigsetjmp", "__pthread_register_cancel", "__pthread_unregister_cancel"}, used)
    need("BIND_NOW" in command("readelf", "-d", OBJECT).stdout, "not bound at once")


def test_python(tmp):
    """A program that has nothing to do with it, with threads, processes and handlers of its own: Python's, in which a string is executed."""
    program = f"""
import ctypes, mmap, signal, subprocess, sys, threading
page = mmap.mmap(-1, 4096, prot=mmap.PROT_READ | mmap.PROT_WRITE | mmap.PROT_EXEC)
# movdqu xmm0, [rdi]; xor ecx, ecx; encodekey128 eax, ecx; movdqu [rsi], xmm0; movdqu [rsi+16], xmm1; movdqu [rsi+32], xmm2; ret
page.write(bytes.fromhex("f30f6f07 31c9 f30f38fac1 f30f7f06 f30f7f4e10 f30f7f5620 c3"))
encode = ctypes.CFUNCTYPE(ctypes.c_uint, ctypes.c_char_p, ctypes.c_char_p)(ctypes.addressof(ctypes.c_char.from_buffer(page)))
def handle():
    result = ctypes.create_string_buffer(48)
    assert encode(bytes(range(16)), result) == 0
    return result.raw.hex()
found = set()
threads = [threading.Thread(target=lambda: [found.add(handle()) for _ in range(50)]) for _ in range(4)]
[thread.start() for thread in threads]
[thread.join() for thread in threads]
if len(sys.argv) == 1:
    signal.signal(signal.SIGILL, lambda *_: print("SIGILL"))
    signal.raise_signal(signal.SIGILL)
    found.add(subprocess.run([sys.executable, __file__, "child"], capture_output=True, text=True).stdout.strip())
print(*found)
"""
    (tmp / "program.py").write_text(program)
    wrapped = model.key_locker.wrap(IWKEY[:16], IWKEY[16:], bytes(16), bytes(range(16))).hex()
    result = must(run("--count", *with_iwkey(tmp), sys.executable, tmp / "program.py"), 0, "python")
    need(result.stdout == f"SIGILL\n{wrapped}\n" and counts(result.stderr) == {"encodekey128": (400, 0, 0)}, result.stdout, result.stderr)


if __name__ == "__main__":
    try:
        harness.main(__file__, globals())
    finally:
        shutil.rmtree(BUILT)
