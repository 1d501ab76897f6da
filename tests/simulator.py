#!/usr/bin/env python3
"""The simulator: what make test-simulator runs, after make all.

Traces' expectations are checked by tests/traces.py over the model in Python, so that a trace that the simulator meets has two witnesses.
Prints a line for each test, and exits with 1 if one failed.
"""

import contextlib
import functools
import io
import json
import os
import pty
import random
import re
import resource
import shutil
import subprocess

import harness
import traces
from harness import HEADER, PROGRAM, ROOT, STRICT, command, must, need


def simulate(text, *options, program=PROGRAM, **others):
    """Runs a trace from standard input."""
    return command(program, *options, "-", input=text, **others)


# ---- what it prints


def test_scenario(tmp):
    """Alike with no argument, as a printed trace, and from standard input."""
    built_in = must(command(PROGRAM), 0, "no argument")
    text = must(command(PROGRAM, "--print-scenario"), 0, "--print-scenario").stdout
    need(text == (ROOT / "simulator/scenario.trace").read_text(), "--print-scenario is not simulator/scenario.trace")
    (tmp / "x.trace").write_text(text)
    need(built_in.stdout == must(command(PROGRAM, tmp / "x.trace"), 0, "x.trace").stdout == simulate(text).stdout, "outputs differ")
    expects = len(re.findall("^(?:cpu . )?expect ", text, re.M))
    summary = built_in.stdout.splitlines()[-1]
    need(f"{expects} expectations, 0 of them not met" in summary and expects > 30, summary)
    for outcome in ["old", "new", "junk"]:
        need(re.search(rf"^ +\d+  sleep {outcome}\n +0 done", built_in.stdout, re.M), "no sleep", outcome)
    need(built_in.stderr == "", built_in.stderr)


def test_traces(tmp):
    for file in traces.TRACES:
        result = must(command(PROGRAM, file), 0, file.name)
        need("NOT MET" not in result.stdout and result.stderr == "", file.name)
        need(command(PROGRAM, file).stdout == result.stdout, file.name, "prints something else the second time")


def test_description(tmp):
    """The examples of TRACES.md run, and what it says that they print is printed."""
    examples = traces.language_examples()
    need(len(examples) >= 3, "examples in TRACES.md:", len(examples))
    printed = "".join(must(simulate(example), 0, example).stdout for example in examples)
    shown = re.findall(r"```\n(     5 .*?)```", traces.LANGUAGE.read_text(), re.S)
    need(len(shown) == 1 and shown[0] in printed, "TRACES.md shows what is not printed")


def test_random(tmp):
    """Random calls, with all that the model says of each."""
    for seed in [1, 2]:
        with contextlib.redirect_stdout(io.StringIO()) as text:
            traces.RandomTrace(seed).run(250)
        summary = must(simulate(text.getvalue(), "--quiet"), 0, f"seed {seed}").stdout
        need(" 260 calls" in summary and int(re.search("(\\d+) expectations", summary)[1]) > 750, summary)
        need(re.search("step 67 f30f38d.*\nexpect done\nexpect zf 0\n", text.getvalue()), f"seed {seed}: no handle opens by a string with 67")
        need(re.search("step empty.*\nexpect done\n", text.getvalue()), f"seed {seed}: no idle step")
        for seen in ["zf 0\nexpect counted = [0-9a-f]{34}", "zf 0\nexpect counted = 00\\*0", "zf 1"]:
            need(re.search(f" ctr .*\nexpect done\nexpect {seen}", text.getvalue()), f"seed {seed}: no counter call with", seen)
        need(re.search("^taken\nexpect done\nexpect machine = .*01000001$", text.getvalue(), re.M), f"seed {seed}: no backup is taken")


def test_random_keyrings(tmp):
    """The same on keyrings, with every byte of them."""
    for seed in [1, 2, 3]:
        with contextlib.redirect_stdout(io.StringIO()) as text:
            traces.RandomKeyrings(seed).run(500)
        summary = must(simulate(text.getvalue(), "--quiet"), 0, f"seed {seed}").stdout
        need(" 500 calls" in summary, summary)
        for seen in ["expect refused 15", "expect refused 16", "expect refused 17", "expect kind 0", "expect kind 1"]:
            need(text.getvalue().count(f"{seen}\n") > 5, f"seed {seed}: too few of", seen)


WORDS = """
show machine
-- 924 bytes, all zero: the machine is not powered on; every call but power-on is refused, 1
machine = 00*923
show machine
-- 923 bytes, which are no machine; every call is refused, 1
power-on 1
-- 1 the machine does not have 924 bytes
taken
-- 1 the machine does not have 924 bytes
machine = 01*924
show machine
-- 924 bytes, which are no machine; every call but power-on is refused, 1
machine = 00*924
power-on 17
-- 1 the processor count or the features are not possible
sleep old
-- 1 these bytes are no machine; was it powered on?
taken
-- 1 these bytes are no machine; was it powered on?
power-on 1
-- 0 done: 1 processor,
sleep 3
-- 2 wake code unknown
cpu 1 read 0x990
-- 3 the machine has no such processor
cpu 1 cpuid 7
-- 0 done: eax 0x0, ebx 0x0, ecx 0x800000 (KL), edx 0x0
cpu 0 cpuid 0x19
-- 0 done: eax 0x7 (cpl0-only, no-encrypt, no-decrypt), ebx 0x15 (AESKLE, WIDE_KL, backup), ecx 0x3 (no-backup, random), edx 0x0
cpu 0 cpuid 0x1a
-- 0 done: eax 0x0, ebx 0x0, ecx 0x0, edx 0x0
cpu 0 cpl 4 cpuid 7
-- 5 CPL above 3, or a zero field
cpu 1 set record = 00*407
cpu 1 cpuid 7
-- 4 the CPU record does not have 408 bytes
cpu 0 step 90
-- 8 the string has a byte that no instruction has there
cpu 0 step f3 0f
-- 9 the string ends inside an instruction
cpu 0 cpl 4 step empty
-- 5 CPL above 3, or a zero field
cpu 0 step empty random 00
-- 7 random data neither 0 nor 48 bytes
cpu 0 set control = 8
cpu 0 cpl 3 step empty
-- 0 done: an idle step
cpu 0 step f0
-- 9 the string ends inside an instruction
cpu 0 set control = 3
cpu 0 step f0 f3 0f 38 dc c0
-- lock loadiwkey xmm0, xmm0
-- 10 #UD: LOCK,
cpu 0 cpl 3 loadiwkey 00*48
-- 12 #GP(0): CPL above 0, EAX
cpu 0 encodekey128 00*16 restrict 8
-- 12 #GP(0): restriction bits
cpu 0 cpl 1 write IA32_COPY_LOCAL_TO_PLATFORM 1
-- 12 #GP(0): CPL above 0, no backup registers
cpu 0 cpl 3 step f0 67
-- 9 the string ends inside an instruction
cpu 0 cpl 3 step f0 67 f3 0f 38 dc c0
-- lock loadiwkey xmm0, xmm0
-- 10 #UD: LOCK,
cpu 0 cpl 3 step 67 f3 0f 38 dc d1
-- loadiwkey xmm2, xmm1
-- 12 #GP(0): CPL above 0, EAX
cpu 0 step 67 f3 0f 38 fa c1
-- encodekey128 eax, ecx
-- 12 #GP(0): restriction bits
cpu 0 set rsp = 0x8000000000000000
cpu 0 step f3 0f 38 dc 04 24
-- aesenc128kl xmm0, [rsp]    the handle is at 0x8000000000000000
-- 13 #SS(0): the address of a handle byte
cpu 0 set rax = 0x8000000100000
cpu 0 step 67 f3 0f 38 dc 00
-- aesenc128kl xmm0, [eax]    the handle is at 0x100000
-- 14 #PF: a handle byte lies outside memory
cpu 0 step 67 f3 0f 38 dc 04 24
-- aesenc128kl xmm0, [esp]    the handle is at 0x0
-- 0 done, ZF 1: RIP is 7 bytes on; the handle does not open, its tag does not match (this processor has another IWKey, or the handle was altered)
memory size 1000
cpu 0 aesenc128kl 00*48 00*16
-- 14 #PF: a handle byte lies outside memory
-- the handle was put at 0xfffc0, into the last 64 bytes of guest memory, and only 1000 bytes of that are lent
memory size 0x100000
cpu 0 set rbx = 0x1234
cpu 0 show rbx
-- rbx 0x1234
cpu 0 aesenc128kl at 1048575 00*16
-- 14 #PF: a handle byte lies outside memory
cpu 0 encodekey128 22*16 restrict 2 -> opener
cpu 0 encodekey128 22*16 -> handle
cpu 0 ctr handle 00*16 33*33
-- 0 done, ZF 0: the handle opens, 33 bytes are XORed with 3 encrypted counters
cpu 0 ctr handle 00*16 33 -> one
-- 0 done, ZF 0: the handle opens, 1 byte is XORed with 1 encrypted counter
cpu 0 ctr handle 00*16 empty
-- 0 done, ZF 0: the handle opens, there are no bytes
cpu 0 ctr opener 00*16 33*33
-- 0 done, ZF 1: the handle does not open, it may not encrypt; the bytes are unchanged
cpu 0 ctr handle 00*15 33*33
-- 18 more than 65536 bytes, a handle neither 48 nor 64, or a counter block not 16
cpu 0 cpl 4 ctr handle 00*15 33*33
-- 5 CPL above 3, or a zero field
cpu 0 loadiwkey 11*48 random not-ready
-- 0 done, ZF 1: the random source was not ready
cpu 0 write IA32_COPY_PLATFORM_TO_LOCAL 1
-- 0 done: copy status 0, not copied: there is no backup
cpu 0 write IA32_COPY_LOCAL_TO_PLATFORM 0
-- 0 done: nothing is copied when 0 is written
settle good
-- 0 done: no backup was pending
taken
-- 0 done: no backup was pending
cpu 0 write IA32_COPY_LOCAL_TO_PLATFORM 1
-- 0 done: copy status 1, the IWKey is in the backup
taken
-- 0 done: the platform has taken the backup, its storage is still at work
cpu 0 read IA32_IWKEYBACKUP_STATUS
-- 0 done: value 8, the backup is not valid, error 0, consumed 1
TAKEN
-- 0 done: the platform has taken the backup before
cpu 0 write IA32_COPY_LOCAL_TO_PLATFORM 1
-- 0 done: copy status 0, not copied: a backup is pending
cpu 0 loadiwkey 11*48 no-backup
-- 0 done, ZF 0: the IWKey is loaded (key source 0, NoBackup 1)
cpu 0 write IA32_COPY_LOCAL_TO_PLATFORM 1
-- 0 done: copy status 0, not copied: the IWKey has NoBackup
settle bad
-- 0 done: persistent storage failed
cpu 0 read IA32_IWKEYBACKUP_STATUS
-- 0 done: value 12, the backup is not valid, error 1, consumed 1
show keyring
-- 0 bytes, which are no keyring: calls on it are refused, 15
keyring lookup 05*12
-- 15 these bytes are no keyring, or the label has not 12 bytes
keyring records 3
keyring add 05*12 33*47
-- 15 these bytes are no keyring, the label has not 12 bytes, or the handle neither 48 nor 64
keyring add 05*12 33*48
-- 0 done: record 1 of chain 5, a new one, the first of its chain
keyring add 757365722d6b657900000000 44*64
-- 0 done: record 2 of chain 5, a new one, the first of its chain
keyring add 05*12 55*64
-- 0 done: record 1 of chain 5, its handle is replaced
keyring lookup 05*12
-- 0 done: record 1 of chain 5, kind 1
keyring lookup 15*12
-- 16 no record of the label's chain has it
keyring add 15*12 33*48
-- 17 the label is not there, and every record but 0 is on a chain
show keyring
-- chain 5, record 2: kind 1, label 757365722d6b657900000000 'user-key', handle 44444444444444444444444444444444 ..
"""


def test_words(tmp):
    """Each answer with its number and in words, below its statement."""
    blocks = [block.split("\n-- ") for block in re.split(r"\n(?!-- )", WORDS.strip())]
    printed = must(simulate("\n".join(statement for statement, *answers in blocks)), 0, "words").stdout
    for number, (statement, *answers) in enumerate(blocks, 1):
        lines = [f"{number:6}  {re.escape(statement)}\n", *(f"        {re.escape(words)}.*\n" for words in answers)]
        need(re.search("^" + "".join(lines), printed, re.M), "not printed:", statement, answers)


def test_quiet(tmp):
    text = "power-on 1\nsay Words.\nshow 0102\nexpect done\nexpect refused 2\n"
    result = must(simulate(text, "-q"), 1, "quiet")
    need("power-on" not in result.stdout and "Words.\n" in result.stdout and "0102" in result.stdout, result.stdout)
    need(result.stdout.count("expect ") == 1 and "     5  expect refused 2: NOT MET, the last call was done" in result.stdout, result.stdout)


# ---- expectations that are not met


def altered(line):
    """The expectation, so that it is not met."""
    if found := re.match(r"(.*\bzf )([01])", line):
        return found[1] + str(1 - int(found[2]))
    if found := re.match(r"(.*\b(?:value|kind) )(\w+)", line):
        return found[1] + str(int(found[2], 0) + 1)
    if found := re.match(r"(expect e[abcd]x )(\w+)", line, re.I):
        return found[1] + str(int(found[2], 0) ^ 1)
    if found := re.match(r"(.*\brefused )(\d+)", line):
        return found[1] + str(int(found[2]) % 18 + 1)
    if found := re.match(r"(.*\brefused )([a-z_]+)", line, re.I):
        return found[1] + ("ud" if found[2].lower() != "ud" else "nm")
    if re.match(r"expect done", line):
        return "expect refused 6"
    if found := re.match(r"(cpu \S+ expect (?:r(?!ecord)[a-z0-9]+|cpl|control) = )(\w+)", line):
        return found[1] + str(int(found[2], 0) ^ 1)
    return line.split("#")[0] + " 00"


def test_unmet_by_refused(tmp):
    """What a refused call would have answered is not taken from the call before."""
    head = "power-on 1\ncpu 0 loadiwkey 00*48\ncpu 0 read 0x990\ncpu 0 cpuid 0x19\nkeyring records 2\nkeyring add 00*12 00*48\nkeyring lookup 00*12\n"
    for refused, expect in [
        ("cpu 0 step f0", "zf 0"),
        ("cpu 0 ctr 00*48 00*15 empty", "zf 0"),
        ("cpu 0 read 0x992", "value 0"),
        ("cpu 0 cpl 4 cpuid 0x19", "eax 7"),
        ("cpu 0 cpl 4 cpuid 0", "edx 0"),
        ("keyring lookup 01*12", "kind 0"),
    ]:
        result = must(simulate(f"{head}{refused}\nexpect {expect}\n"), 1, refused)
        need(f"expect {expect}: NOT MET, the last call was refused" in result.stdout, result.stdout)


def test_unmet_words(tmp):
    """What was found instead."""
    for call, expect, found in [
        ("cpu 0 loadiwkey 00*48", "zf 1", "ZF is 0"),
        ("cpu 0 set rflags = 0x42\ncpu 0 step empty", "zf 0", "ZF is 1"),
        ("cpu 0 ctr 00*48 00*16 empty", "zf 0", "ZF is 1"),
        ("cpu 0 read 0x990", "value 2", "the value is 0"),
        ("cpu 0 cpuid 7", "ecx 0x400000", "ecx is 0x800000"),
        ("cpu 0 cpuid 0x19", "ebx 5", "ebx is 0x15"),
        ("keyring records 2\nkeyring add 00*12 00*64\nkeyring lookup 00*12", "kind 0", "the kind is 1"),
    ]:
        result = must(simulate(f"power-on 1\n{call}\nexpect {expect}\n"), 1, call)
        need(f"expect {expect}: NOT MET, {found}\n" in result.stdout, result.stdout)


def test_unmet(tmp):
    """Each expectation of each trace can fail."""
    count = 0
    for file in traces.TRACES:
        lines = file.read_text().splitlines()
        for number, line in enumerate(lines, 1):
            if not re.match(r"(cpu \S+ )?expect ", line, re.I):
                continue
            text = "\n".join(lines[: number - 1] + [altered(line)] + lines[number:])
            result = must(simulate(text, "--quiet"), 1, f"{file.name}:{number} altered")
            need(f"standard input:{number}: not met" in result.stderr and result.stdout.count("NOT MET") == 1, file.name, number, result.stderr)
            count += 1
    need(count > 150, "expectations:", count)


BYTES = [
    ("0011 = 0012", "byte 1 differs: found 11, expected 12"),
    ("00*20 = 00*3 01*17", "byte 3 differs: found 00000000000000000000000000000000.., expected 01010101010101010101010101010101.."),
    ("00*20 = 00*4 01*16", "byte 4 differs: found 00000000000000000000000000000000, expected 01010101010101010101010101010101"),
    ("0011 = 001122", "2 bytes, expected 3; byte 2 differs: found nothing, expected 22"),
    ("00*48 = 00*2", "48 bytes, expected 2; byte 2 differs: found 00000000000000000000000000000000.., expected nothing"),
    ("0011 = 0111*8", "2 bytes, expected 16; byte 0 differs: found 0011, expected 01110111011101110111011101110111"),
]


def test_unmet_bytes(tmp):
    """The first place that differs, and what stands there on both sides."""
    for expect, found in BYTES:
        result = must(simulate(f"expect {expect}\n"), 1, expect)
        need(f"expect {expect}: NOT MET, {found}\n" in result.stdout, result.stdout)


# ---- handles that do not open

# The use of a handle of processor 0's IWKey, encoded with some restrictions and then altered, and why it does not open.
TAG = "its tag does not match (this processor has another IWKey, or the handle was altered)"
REASONS = [
    ("no-encrypt", "", "cpu 0 aesenc128kl", "it may not encrypt"),
    ("no-decrypt", "", "cpu 0 aesdecwide128kl", "it may not decrypt"),
    ("no-encrypt no-decrypt", "", "cpu 0 aesdec128kl", "it may not decrypt"),
    ("cpl0-only", "", "cpu 0 cpl 1 aesenc128kl", "it is for CPL 0 and CPL is 1"),
    ("cpl0-only no-decrypt", "", "cpu 0 cpl 3 aesdec128kl", "it is for CPL 0 and CPL is 3, it may not decrypt"),
    ("", "", "cpu 0 aesenc256kl", "its key type is 0 and not 1 (AES-256)"),
    ("", "000000010000000000000000", "cpu 0 aesenc128kl", "its key type is 1 and not 0 (AES-128)"),
    ("", "000000020000000000000000", "cpu 0 aesencwide256kl", "its key type is 2 and not 1 (AES-256)"),
    ("", "080000000000000000000000", "cpu 0 aesenc128kl", "reserved bits of its AAD are set"),
    ("", "000000100000000000000000", "cpu 0 aesenc128kl", "reserved bits of its AAD are set"),
    ("", "000000000000000000000000000080", "cpu 0 aesenc128kl", "reserved bits of its AAD are set"),
    ("no-encrypt", "008000", "cpu 0 aesenc128kl", "reserved bits of its AAD are set, it may not encrypt"),
    ("", "000000000000000000000000000000000001", "cpu 0 aesenc128kl", TAG),
    ("", "", "cpu 1 aesdec128kl", TAG),
    ("", "040000", "cpu 0 aesenc128kl", TAG),
]


def string_of(mnemonic):
    """Of a use with its handle at RBX."""
    opcode, reg = (0xD8, traces.WIDE.index(mnemonic)) if mnemonic in traces.WIDE else (traces.OPCODES[mnemonic], 0)
    return bytes([0xF3, 0x0F, 0x38, opcode, 8 * reg | 3]).hex()


def test_reasons(tmp):
    """Of a mnemonic, of the same as a string, and of a counter call where it is one that encrypts."""
    for restrictions, altered, use, reason in REASONS:
        cpu, mnemonic = use.rsplit(" ", 1)
        calls = [
            (f"{use} h^mask 33*{128 if 'wide' in use else 16}", f"the handle does not open, {reason}; the block"),
            (f"{cpu} step {string_of(mnemonic)}", f"RIP is 5 bytes on; the handle does not open, {reason}\n"),
            (f"{cpu} ctr h^mask 00*16 33", f"the handle does not open, {reason}; the bytes are unchanged\n"),
        ][: 3 if mnemonic == "aesenc128kl" else 2]
        text = f"power-on 2\n{use[:5]} set rbx = {traces.HANDLE_PLACE}\ncpu 0 loadiwkey 11*48\ncpu 0 encodekey128 22*16 {restrictions} -> h\n"
        text += f"bytes mask = {altered:0<96}\n" + "".join(f"{call}\nexpect zf 1\n" for call, words in calls)
        printed = must(simulate(text), 0, text).stdout
        need(all(f"0 done, ZF 1: {words}" in printed for call, words in calls), reason, "\n", printed)


# ---- refusals by name, and --strict


def header_refusals():
    text = re.search("/\\* ---- answers ----.*?/\\* ---- the calls", HEADER.read_text(), re.S)[0]
    return {name: int(number) for name, number in re.findall(r"^#define (KEYLOCKER_\w+) (\d+)", text, re.M)}


def test_refusal_names(tmp):
    """All those of the header, in any case, with KEYLOCKER_ and without: met by a call that is refused so, and by no other."""
    names = header_refusals()
    need(sorted(names.values()) == list(range(19)) and names.pop("KEYLOCKER_DONE") == 0, names)
    need({name.removeprefix("KEYLOCKER_").lower(): number for name, number in names.items()} == traces.REFUSALS, "tests/traces.py has other names")
    refused = {1: "sleep old", 12: "power-on 1\ncpu 0 cpl 3 loadiwkey 00*48", 14: "power-on 1\ncpu 0 aesenc128kl at 1048575 00*16", 15: "keyring lookup 00*12"}
    for number, text in refused.items():
        for name, meant in names.items():
            short = name.removeprefix("KEYLOCKER_").lower()
            result = must(simulate(f"{text}\n" + "".join(f"expect refused {form}\n" for form in [name, name.lower(), short])), int(meant != number), name)
            need(result.stdout.count(": met\n") == (3 if meant == number else 0), name, result.stdout)


# A trace, and how many of its calls are refused, or leave ZF 1, without a word of that.
STRICTLY = [
    ("", 0),
    ("power-on 1\nreset\n", 0),
    ("sleep old\n", 1),
    ("sleep old\nexpect refused bad_machine\n", 0),
    ("sleep old\nexpect machine[0] = 00\n", 1),
    ("sleep old\nsay Words.\npower-on 1\nexpect done\n", 1),
    ("sleep old\nsleep old\nexpect refused 1\nreset\n", 2),
    ("power-on 1\ncpu 0 aesenc128kl 00*48 00*16\n", 1),
    ("power-on 1\ncpu 0 aesenc128kl 00*48 00*16\nexpect zf 1\n", 0),
    ("power-on 1\ncpu 0 aesenc128kl 00*48 00*16\nexpect done\n", 1),
    ("power-on 1\ncpu 0 ctr 00*48 00*16 empty\n", 1),
    ("power-on 1\ncpu 0 loadiwkey 11*48 random not-ready\nshow machine\n", 1),
    ("power-on 1\ncpu 0 set rflags = 0x42\ncpu 0 step empty\n", 0),  # ZF does not speak of an idle step
    ("power-on 1\ncpu 0 set rflags = 0x42\ncpu 0 read 0x990\n", 0),
    ("keyring records 1\nkeyring lookup 00*12\n", 1),
]


def test_strict(tmp):
    for text, count in STRICTLY:
        must(simulate(text), 0, repr(text))
        for option in ["-s", "--strict"]:
            result = must(simulate(text, option), int(count > 0), repr(text))
            need(f"; {count} calls refused or with ZF 1 that no expectation names\n" in result.stdout, result.stdout)
            first = [n for n, line in enumerate(text.splitlines(), 1) if re.match("sleep|cpu 0 (aes|ctr|load)|keyring lookup", line)][:1]
            said = f"standard input:{first[0]}: refused or ZF 1, and no expectation names it, the first of {count} calls\n" if count else ""
            need(result.stderr == said, repr(text), result.stderr)
    unmet = must(simulate("sleep old\nexpect done\n", "--strict"), 1, "unmet")
    need(unmet.stderr == "standard input:2: not met, the first of 1 expectations\n", unmet.stderr)
    for file in traces.TRACES:
        must(command(PROGRAM, "--strict", file), 0, file.name)


# ---- bad lines

# The line, and a part of what is said of it.
BAD_LINES = [
    ("powr-on 2", "'powr-on' begins no statement; expected cpu, power-on"),
    ("power-on", "expected the number of processors after 'power-on'"),
    ("power-on 256", "a number from 0 to 255"),
    ("power-on two", "not 'two'"),
    ("power-on 2 features", "expected kl, firmware"),
    ("power-on 2 features sgx", "not 'sgx'"),
    ("power-on 2 3", "expected the end of the line, not '3'"),
    ("taken now", "expected the end of the line, not 'now'"),
    ("settle", "expected good, bad, or a code from 0 to 255 after 'settle'"),
    ("settle maybe", "not 'maybe'"),
    ("sleep well", "expected old, new, junk"),
    ("sleep 256", "not '256'"),
    ("reset now", "expected the end of the line, not 'now'"),
    ("cpu", "expected a processor number after 'cpu'"),
    ("cpu 256 show", "a number from 0 to 255"),
    ("cpu 0", "expected an instruction"),
    ("cpu 0 aesenc", "not 'aesenc'"),
    ("cpu 0 cpl 3 set rax = 1", "expected an instruction, step, ctr, cpuid, read or write behind cpl, not 'set'"),
    ("cpu 0 loadiwkey 00*47", "48 bytes, and these are 47"),
    ("cpu 0 loadiwkey 00*48 random 00", "expected not-ready or random data, 48 bytes, and these are 1"),
    ("cpu 0 loadiwkey 00*48 no-decrypt", "expected the end of the line, not 'no-decrypt'"),
    ("cpu 0 encodekey128 00*32", "expected a key, 16 bytes, and these are 32"),
    ("cpu 0 encodekey128 -> handle", "expected a key before '->'"),
    ("cpu 0 encodekey256 00*32 ->", "expected a name after '->'"),
    ("cpu 0 encodekey256 00*32 -> cafe", "'cafe' cannot be a name, since it reads as hexadecimal"),
    ("cpu 0 encodekey256 00*32 -> xmm3", "'xmm3' cannot be a name, since it means something already"),
    ("cpu 0 encodekey256 00*32 -> a/b", "'a/b' cannot be a name; expected letters"),
    ("cpu 0 aesenc128kl no-such-handle 00*16", "'no-such-handle' is no name given before"),
    ("cpu 0 aesenc128kl good 00*15", "expected a block, 16 bytes, and these are 15"),
    ("cpu 0 aesenc128kl taken 00*16", "'taken' has no value: the call in line 4 gave it none"),
    ("cpu 0 aesencwide128kl good 00*16", "expected 8 blocks, 128 bytes, and these are 16"),
    ("cpu 0 aesenc128kl 00*65 00*16", "expected a handle, at most 64 bytes, and these are 65"),
    ("cpu 0 aesenc128kl at far 00*16", "not 'far'"),
    ("cpu 0 step", "expected an instruction string in hexadecimal, or empty after 'step'"),
    ("cpu 0 step f3 0f 3", "'3' has an odd number of hexadecimal digits"),
    ("cpu 0 step 0xf3", "expected bytes without 0x"),
    ("cpu 0 ctr", "expected a handle after 'ctr'"),
    ("cpu 0 ctr good", "expected a counter block after 'good'"),
    ("cpu 0 ctr good 00*16", "expected bytes, or empty after '00*16'"),
    ("cpu 0 ctr good 00*16 -> sealed", "expected bytes, or empty before '->'"),
    ("cpu 0 ctr good 00*16 empty 00", "expected the end of the line, not '00'"),
    ("cpu 0 ctr at 0 00*16 00", "'at' is no name given before"),
    ("cpu 0 ctr taken 00*16 00", "'taken' has no value: the call in line 4 gave it none"),
    ("ctr good 00*16 00", "'ctr' begins no statement"),
    ("cpu 0 cpuid", "expected a leaf after 'cpuid'"),
    ("cpu 0 cpuid 0x100000000", "expected a leaf, a number from 0 to 4294967295"),
    ("cpu 0 cpuid 19h", "not '19h'"),
    ("cpu 0 cpuid 7 0x100000000", "expected a subleaf, a number from 0 to 4294967295"),
    ("cpu 0 cpuid 7 -> leaf", "expected a subleaf"),
    ("cpu 0 cpuid 7 0 0", "expected the end of the line, not '0'"),
    ("cpuid 7", "'cpuid' begins no statement"),
    ("cpu 0 read IA32_SOMETHING", "expected IA32_COPY_STATUS"),
    ("cpu 0 write 0xD91", "expected the value to be written after '0xD91'"),
    ("cpu 0 write 0xD91 0x10000000000000000", "not '0x10000000000000000'"),
    ("cpu 0 write 0x100000000 1", "an address of 32 bits, not '0x100000000'"),
    ("cpu 0 set eax = 1", "expected a register"),
    ("cpu 0 set rax 1", "expected '=', not '1'"),
    ("cpu 0 set xmm0 = 00", "expected a block, 16 bytes, and these are 1"),
    ("cpu 0 set cpl = 256", "a number from 0 to 255"),
    ("cpu 0 set record = 00*513", "at most 512 bytes"),
    ("bytes good 00", "expected '=', not '00'"),
    ("bytes good =", "expected bytes after '='"),
    ("bytes good = good[3", "expected ] in 'good[3'"),
    ("bytes good = good[3..2]", "expected the first not behind the last"),
    ("bytes good = good[0..48]", "takes bytes 0 to 48 of 48"),
    ("bytes good = good[x]", "expected a number in 'good[x]'"),
    ("bytes good = 00*2000000 00*2000000", "expected at most 2097154 bytes"),
    ("bytes good = 00*0xffffffffffffffff", "expected at most 2097154 bytes"),
    ("bytes good = good^00", "joins 48 and 1 bytes by ^"),
    ("bytes good = ^00", "expected bytes, hexadecimal or a name, in '^00'"),
    ("bytes good = 00+00", "'00+00' is not understood from '+00' on"),
    ("bytes good = xmm0", "'xmm0' belongs to a processor; expected cpu N"),
    ("iwkey farm = integrity 00*16", "expected encryption after '00*16'"),
    ("iwkey farm = integrity 00*17 encryption 00*32", "expected an integrity key, 16 bytes, and these are 17"),
    ("memory", "expected size or an address in guest memory after 'memory'"),
    ("memory 1048576 = 00", "a number from 0 to 1048575"),
    ("memory 1048575 = 0000", "expected at most 1 bytes from address 1048575 on"),
    ("memory size 1048578", "a number from 0 to 1048577"),
    ("machine 00", "expected '=', not '00'"),
    ("keyring", "expected =, records, add or lookup after 'keyring'"),
    ("keyring remove good", "expected =, records, add or lookup, not 'remove'"),
    ("keyring =", "expected the keyring's bytes after '='"),
    ("keyring records", "expected the number of records after 'records'"),
    ("keyring records 26215", "a number from 0 to 26214"),
    ("keyring records 2 3", "expected the end of the line, not '3'"),
    ("keyring add", "expected a label after 'add'"),
    ("keyring add 00*12", "expected a handle after '00*12'"),
    ("keyring add 00*12 good -> x", "expected the end of the line, not '->'"),
    ("keyring lookup", "expected a label after 'lookup'"),
    ("keyring lookup 00*12 good", "expected the end of the line, not 'good'"),
    ("keyring lookup 00*12 -> keyring", "'keyring' cannot be a name, since it means something already"),
    ("bytes kind = 00", "'kind' cannot be a name, since it means something already"),
    ("expect kind 0", "expected a keyring lookup as the last call"),
    ("expect kind 256", "a number from 0 to 255"),
    ("expect", "expected done, refused, zf, value, kind, eax, ebx, ecx, edx or bytes after 'expect'"),
    ("expect refused 19", "a number from 1 to 18"),
    ("expect refused 0", "0 is 'expect done'"),
    ("expect refused done", "0 is 'expect done'"),
    ("expect refused mc", "not 'mc'"),
    ("expect refused keylocker_", "not 'keylocker_'"),
    ("expect refused KEYLOCKER_GPF", "not 'GPF'"),
    ("expect refused", "expected a refusal, a number from 1 to 18 or a name of keylocker.h, such as gp or bad_machine after 'refused'"),
    ("expect zf 2", "a number from 0 to 1"),
    ("expect value 1", "expected a read as the last call"),
    ("expect eax 7", "expected a cpuid as the last call before 'expect eax'"),
    ("cpu 0 expect edx 0", "expected a cpuid as the last call before 'expect edx'"),
    ("expect ebx", "expected what CPUID answers after 'ebx'"),
    ("expect ecx 0x100000000", "a number from 0 to 4294967295"),
    ("expect ecx = 3", "not '='"),
    ("bytes ecx = 00", "'ecx' cannot be a name, since it means something already"),
    ("expect done today", "expected the end of the line, not 'today'"),
    ("expect rax = 1", "'rax' belongs to a processor; expected cpu N"),
    ("expect good", "expected = after 'good'"),
    ("show", "expected machine, keyring or bytes after 'show'"),
    ("cpu 0 show rip rsp", "expected the end of the line, not 'rsp'"),
    ("show rip", "'rip' belongs to a processor; expected cpu N"),
    ("cpu 0 bytes good = rip", "'rip' is a number; expected bytes"),
    ("bytes new = new", "'new' is no name given before"),
    ("cpu 0 encodekey128 00*16 -> new new", "expected the end of the line, not 'new'"),
    ("bytes good = \x01", "a control character (byte 0x01)"),
    ("expect good = \0", "a control character (byte 0x00)"),
]

BEFORE = "power-on 1\nbytes good = 00*48\nsay BEFORE\ncpu 0 aesenc128kl good 00*16 -> taken\n"


def test_bad_lines(tmp):
    """What is said, where, and that nothing behind it is run; with the line in the middle, and at the end without a newline."""
    for line, said in BAD_LINES:
        for after in ["", "\nsay AFTER\n"]:
            (tmp / "bad.trace").write_text(BEFORE + line + after)
            result = must(command(PROGRAM, tmp / "bad.trace"), 2, repr(line))
            need(result.stderr.startswith(f"{tmp}/bad.trace:5: ") and said in result.stderr, repr(line), "says", result.stderr)
            need("expected" in result.stderr or "gave it none" in result.stderr, "what was expected:", result.stderr)
            need(result.stderr.count("\n") == 1, result.stderr)
            need("BEFORE" in result.stdout and "AFTER" not in result.stdout, repr(line), result.stdout)
            need("     5  " not in result.stdout, "the bad line is among those run", result.stdout)


def test_first_line(tmp):
    need("standard input:1: " in must(simulate("expect done"), 2, "expect first").stderr, "line 1")
    need("standard input:1: " in must(simulate("expect zf 0"), 2, "expect first").stderr, "line 1")
    said = must(simulate("power-on 1\nexpect zf 0"), 2, "expect zf of a power-on").stderr
    need("standard input:2: expected an instruction or a ctr as the last call" in said, said)


def test_usage(tmp):
    for args in [["--no-such"], ["-x"], ["a", "b"], [tmp / "missing.trace"], [tmp]]:
        result = must(command(PROGRAM, *args), 2, args)
        need(result.stdout == "" or args == [tmp], result.stdout)
        need(str(args[-1]) in result.stderr, result.stderr)
    need("usage" in must(command(PROGRAM, "--help"), 0, "--help").stdout, "--help")
    version = re.search('KEYLOCKER_VERSION "(.*)"', HEADER.read_text())[1]
    need(must(command(PROGRAM, "--version"), 0, "--version").stdout == f"keylocker-simulator {version}\n", "--version")


def test_full(tmp):
    """Output that is lost is told, whatever is printed."""
    (tmp / "short.trace").write_text("power-on 1\n")
    (tmp / "bad.trace").write_text("power-on 1\nsleep well\n")
    for args in [[], ["--json"], ["-q"], [tmp / "short.trace"], ["--print-scenario"], ["--help"], ["-h"], ["--version"], [tmp / "bad.trace"]]:
        with open("/dev/full", "w") as full:
            result = subprocess.run([PROGRAM, *args], stdout=full, stderr=subprocess.PIPE, text=True)
        need(result.returncode == 2, args, "exit status", result.returncode)
        bad = args == [tmp / "bad.trace"]
        need(result.stderr.startswith("keylocker-simulator: standard output: ") and result.stderr.count("\n") == 1 + bad, args, result.stderr)


# ---- long traces


def test_line_ends(tmp):
    text = "power-on 1\nexpect done\n\n \t\n# comment\nexpect machine[0] = 01"
    for form in [text, text + "\n", text.replace("\n", "\r\n")]:
        result = must(subprocess.run([PROGRAM, "-"], input=form.encode(), capture_output=True), 0, repr(form))
        need(b"6 lines, 1 calls" in result.stdout, result.stdout)
    need("0 lines" in must(simulate(""), 0, "empty").stdout, "an empty trace")


def test_mark(tmp):
    """A byte-order mark is skipped where a trace begins, and nowhere else; UTF-16 is no plain text."""
    mark = b"\xef\xbb\xbf"
    result = must(subprocess.run([PROGRAM, "-"], input=mark + b"power-on 1\r\nexpect done", capture_output=True), 0, "a mark")
    need(b"     1  power-on 1\n" in result.stdout, result.stdout)
    need(b"0 calls" in must(subprocess.run([PROGRAM, "-"], input=mark, capture_output=True), 0, "a mark alone").stdout, "a mark alone")
    for text in [mark * 2 + b"power-on 1", b"power-on 1\n" + mark + b"reset", "power-on 1".encode("utf-16")]:
        must(subprocess.run([PROGRAM, "-"], input=text, capture_output=True), 2, text)


def test_long_lines(tmp):
    memory = random.Random(1).randbytes(1 << 20)
    text = f"power-on 1\nmemory 0 = {memory.hex()}\nexpect memory[0..1048575] = {' '.join(memory[i : i + 1].hex() for i in range(1 << 20))}\n"
    must(simulate(text, "-q"), 0, "a mebibyte in one line")
    text = "power-on 1\n# " + "x" * (16 << 20) + "\nsay AFTER\n"
    result = must(simulate(text), 2, "a line that is too long")
    need("standard input:2: expected a line of at most 16777216 bytes" in result.stderr and "AFTER" not in result.stdout, result.stderr)


def test_many_names(tmp):
    """Names from the first to the last are still told apart."""
    lines = [f"bytes name-{n} = {n:08x}" for n in range(100_000)] + [f"expect name-{n} = {n:08x}" for n in range(0, 100_000, 7)]
    must(simulate("\n".join(lines), "-q"), 0, "many names")


def test_large_names(tmp):
    """A few lines cannot fill the memory, and a name that is given again takes no more."""
    limit = lambda: resource.setrlimit(resource.RLIMIT_AS, (400 << 20, 400 << 20))
    lines = [f"bytes name-{n} = 00*2097154" for n in range(200)]
    result = must(simulate("\n".join(lines), "-q", preexec_fn=limit), 2, "large names")
    need("standard input:128: 2097154 more bytes in a name; expected at most 268435456 in all names together\n" == result.stderr, result.stderr)
    must(simulate("\n".join(lines[:1] * 400), "-q", preexec_fn=limit), 0, "one name again and again")
    kept = "power-on 1\n" + "\n".join(lines[:127]) + "\n" + "".join(f"bytes rest-{n} = 00*102000\n" for n in range(20))
    must(simulate(f"{kept}cpu 0 encodekey128 00*16 -> handle\n", "-q", preexec_fn=limit), 0, "room for a handle")
    result = must(simulate(f"{kept}say LAST\ncpu 0 ctr 00*48 00*16 00*65536 -> counted\n", preexec_fn=limit), 2, "no room for a result")
    need("standard input:150: 65536 more bytes in a name" in result.stderr and result.stdout.endswith("LAST\n"), result.stderr)


def test_xor_limit(tmp):
    """Both sides may be as long as a byte string."""
    must(simulate("bytes all = memory memory\nbytes zero = all^all 0000\nexpect zero = 00*2097154\n", "-q"), 0, "memory twice")
    must(simulate("bytes all = memory memory\nbytes zero = all^all 000000\n", "-q"), 2, "a byte more")


def test_many_sleeps(tmp):
    """An IWKey without a name is not looked for among all other names."""
    names = "".join(f"bytes name-{n} = {n:08x}\n" for n in range(30_000))
    text = f"{names}power-on 1\ncpu 0 loadiwkey 11*48\ncpu 0 write 0xD91 1\nsettle good\n" + "sleep old\nshow machine\n" * 30_000
    must(simulate(text, timeout=30), 0, "many sleeps")


def on_terminal(args, out):
    """What a run writes to standard error, which is a terminal."""
    main, terminal = pty.openpty()
    with open(out, "w") as file:
        process = subprocess.Popen(args, stdout=file, stderr=terminal)
    os.close(terminal)
    shown = b""
    with contextlib.suppress(OSError):  # the end of a terminal
        while some := os.read(main, 65536):
            shown += some
    os.close(main)
    need(process.wait() == 0, "exit status", process.returncode)
    return shown


def test_progress(tmp):
    """On a terminal only, and not in what is printed."""
    count = 15_000  # lines that take long: some seconds
    (tmp / "long.trace").write_text("expect memory = memory\n" * count)
    summary = f"{count} lines, 0 calls, 0 of them refused; {count} expectations, 0 of them not met\n"
    shown = on_terminal([PROGRAM, "-q", tmp / "long.trace"], tmp / "out")
    need(re.search(rb"\rline \d+, \d+ %, \d+ lines/s", shown), "no progress on a terminal:", shown[:200])
    need(shown.endswith(b"\r\x1b[K"), "the progress is left on the terminal")
    need((tmp / "out").read_text() == summary, "printed:", (tmp / "out").read_text())
    need(on_terminal([PROGRAM], tmp / "out") == b"", "progress of a short trace")
    result = command(PROGRAM, "-q", tmp / "long.trace")
    need((result.stdout, result.stderr) == (summary, ""), "progress without a terminal:", result.stderr[:200])


# ---- the code


def test_no_circles(tmp):
    """No file of the program needs another that needs it in turn."""
    sources = {file.stem: file.read_text() + header.read_text() for file in (ROOT / "simulator").glob("*.c") if (header := file.with_suffix(".h")).exists()}
    uses = {name: set(re.findall(r'#include "(\w+)\.h"', text)) & sources.keys() - {name} for name, text in sources.items()}
    need(len(uses) > 20, uses)
    while leaves := [name for name, used in uses.items() if not used]:
        uses = {name: used - set(leaves) for name, used in uses.items() if name not in leaves}
    need(not uses, "circles among", *uses)


# ---- memory


DAMAGE = ["", "0", "[", "..", "]", "*", "^", " ", "->", "=", "9" * 30, "#", "\x7f", "xmm1", "machine", "keyring"]


def mutated(rng, lines):
    """Some lines of the traces, one of them damaged."""
    some = rng.sample(lines, 12)
    line = some[6]
    for _ in range(rng.randrange(1, 4)):
        at = rng.randrange(len(line) + 1)
        line = line[:at] + rng.choice(DAMAGE) + line[at + rng.randrange(3) :]
    return "\n".join(some[:6] + [line] + some[7:])


@functools.cache
def sanitized():
    """The program under the sanitizers, where the compiler has them."""
    program = ROOT / "build/sanitized-simulator"
    sources = sorted((ROOT / "simulator").glob("*.c"))
    flags = ["-std=c11", "-g", "-O1", "-fsanitize=address,undefined", "-fno-sanitize-recover=all", f"-I{ROOT}/include", f"-I{ROOT}/build/simulator"]
    built = command("gcc", *STRICT, *flags, *sources, ROOT / "build/libkeylocker.a", "-o", program)
    need(built.returncode == 0 or "sanitize" in built.stderr or "asan" in built.stderr, built.stderr)
    return program if built.returncode == 0 else PROGRAM


def statements():
    return [line for file in traces.TRACES for line in file.read_text().splitlines() if line and line[0] != "#"]


def test_damaged(tmp):
    """Whatever the lines, it ends by itself with 0, 1 or 2."""
    for file in traces.TRACES:
        must(command(sanitized(), file), 0, file.name)
    lines = statements()
    setup = [line for line in lines if line.startswith(("bytes", "iwkey", "power-on 2"))]
    rng, statuses = random.Random(7), set()
    for _ in range(250):
        text = "\n".join(rng.sample(setup, 10)) + "\n" + mutated(rng, lines)
        result = simulate(text, program=sanitized())
        need(result.returncode in [0, 1, 2] and "ERROR" not in result.stderr, result.returncode, repr(text), result.stderr)
        statuses.add(result.returncode)
    need(2 in statuses, "no damaged line was bad")


FRAGMENTS = [b"\0", b"\n", b"\r\n", b"\xef\xbb\xbf", b"\xff", b"#", b" ", b"\t", b"0x", b"*65536", b"[0..", b"^", b"->", b"=", b"18446744073709551616", b"-1",
             b"record", b"memory", b"cpu 255 ", b"cpl 255 ", b"random not-ready", b"expect ", b"refused KEYLOCKER_", b"ab" * 700]


def garbled(rng, data):
    """Some bytes changed, taken out, doubled, or put in between."""
    data = bytearray(data)
    for _ in range(rng.choice([1, 1, 2, 3, 10])):
        at, length = rng.randrange(len(data) + 1), rng.randrange(40)
        data[at : at + rng.choice([0, 0, 1, length])] = rng.choice([b"", rng.randbytes(rng.randrange(3)), rng.choice(FRAGMENTS), data[at : at + length]])
    return bytes(data)


def test_fuzz(tmp):
    """The same for whatever bytes, in every mode; each run says something, and as JSON all of it is JSON. The seed is printed where it fails."""
    statuses = set()
    for seed in range(300):
        rng = random.Random(seed)
        lines = rng.choice(traces.TRACES).read_bytes().splitlines(keepends=True)
        at = rng.randrange(len(lines))
        data = b"".join(lines[:at]) + garbled(rng, b"".join(lines[at : at + 6]))
        options = rng.choice([[], ["--quiet"], ["--json"], ["--strict"], ["--json", "--strict"]])
        result = subprocess.run([sanitized(), *options, "-"], input=data, capture_output=True, timeout=60)
        need(result.returncode in [0, 1, 2] and b"ERROR" not in result.stderr, "seed", seed, result.returncode, result.stderr[-600:])
        need(result.stdout.endswith(b"\n") or result.stdout == b"", "seed", seed, "prints half a line:", result.stdout[-100:])
        need((result.stderr == b"") == (result.returncode == 0) and result.stderr.count(b"\n") <= 2, "seed", seed, result.stderr)
        if "--json" in options:
            need(all(isinstance(json.loads(line), dict) for line in result.stdout.decode().splitlines()), "seed", seed)
        statuses.add(result.returncode)
    need(statuses == {0, 1, 2}, "exit statuses:", statuses)


def test_valgrind(tmp):
    if shutil.which("valgrind") is None:
        return "no valgrind here"
    (tmp / "bad.trace").write_text(BEFORE + "sleep well\n")
    valgrind = ["valgrind", "-q", "--error-exitcode=99", "--leak-check=full", "--show-leak-kinds=definite,indirect,possible"]
    for args, status in [
        ([], 0),
        ([tmp / "bad.trace"], 2),
        (["-q", ROOT / "tests/traces/refusals.trace"], 0),
        ([ROOT / "tests/traces/cpuid.trace"], 0),
        ([ROOT / "tests/traces/address-size.trace"], 0),
        ([ROOT / "tests/traces/idle.trace"], 0),
        ([ROOT / "tests/traces/ctr.trace"], 0),
        ([ROOT / "tests/traces/keyring.trace"], 0),
        (["--help"], 0),
    ]:
        must(command(*valgrind, PROGRAM, *args), status, args)


if __name__ == "__main__":
    harness.main(__file__, globals())
