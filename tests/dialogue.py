#!/usr/bin/env python3
"""The simulator in a dialogue: as a co-process over pipes, at a terminal, with Ctrl-C, and with --json. make test-simulator runs it, after make all.

Prints a line for each test, and exits with 1 if one failed.
"""

import contextlib
import errno
import fcntl
import io
import json
import os
import pty
import random
import re
import select
import signal
import struct
import subprocess
import termios
import time

import decoder
import harness
import model
import traces
from harness import PROGRAM, ROOT, command, must, need

PATIENCE = 20  # seconds until a missing answer is a failure
CALLED = ["type", "line", "call", "instruction", "processor", "handle", "number", "refusal", "zf", "value", "kind", "eax", "ebx", "ecx", "edx", "name",
          "result", "text"]
SUMMARY = ["type", "lines", "calls", "refused", "expects", "unmet", "first_unmet", "unexpected", "first_unexpected", "bad", "interrupted", "status"]
FIELDS = {
    "call": CALLED,
    "expect": ["type", "line", "text", "met", "found"],
    "say": ["type", "line", "text"],
    "show": ["type", "line", "processor", "what", "value", "bytes"],
    "summary": SUMMARY,
}


# ---- over pipes


class CoProcess:
    """A run whose lines are written one by one."""

    def __init__(self, *options):
        self.process = subprocess.Popen([PROGRAM, *options, "-"], stdin=subprocess.PIPE, stdout=subprocess.PIPE, stderr=subprocess.PIPE)
        self.unread = b""

    def __enter__(self):
        return self

    def __exit__(self, *_):
        self.process.kill()
        self.process.communicate()

    def write(self, text):
        self.process.stdin.write(text.encode())
        self.process.stdin.flush()

    def some(self, seconds):
        """What it prints, or nothing where it prints nothing for so long."""
        ready, _, _ = select.select([self.process.stdout], [], [], seconds)
        return os.read(self.process.stdout.fileno(), 65536) if ready else b""

    def until(self, end):
        """What it prints up to there, without being given more."""
        while end not in self.unread:
            some = self.some(PATIENCE)
            need(some, "no answer; so far:", self.unread)
            self.unread += some
        text, _, self.unread = self.unread.partition(end)
        return text.decode()

    def end(self):
        """What is left when the input ends, what went to standard error, and the status."""
        out, err = self.process.communicate(timeout=PATIENCE)
        return (self.unread + out).decode(), err.decode(), self.process.returncode


def test_pipe(tmp):
    """Each line is answered before the next is written; half a line is not, and one end of input is enough."""
    with CoProcess() as run:
        for line, answer in [
            ("power-on 1", "0 done: 1 processor,"),
            ("cpu 0 loadiwkey 11*48", "0 done, ZF 0: the IWKey is loaded"),
            ("cpu 0 read 0x990", "0 done: value 0,"),
            ("expect value 1", "NOT MET, the value is 0"),
            ("say Words.", "Words."),
            ("show 0102", "0102"),
        ]:
            run.write(f"{line}\n")
            run.until(answer.encode())
        run.write("expect value")
        need(b"met" not in run.unread + run.some(0.2), "half a line was answered")
        run.write(" 0\n")
        run.until(b": met\n")
        out, err, status = run.end()
        need(status == 1 and out.endswith("2 expectations, 1 of them not met\n"), status, out)
        need(err == "standard input:4: not met, the first of 1 expectations\n", err)


def test_many_at_once(tmp):
    """Lines that come together, and a line that comes in pieces, are the same trace."""
    text = (ROOT / "simulator/scenario.trace").read_text()
    whole = must(command(PROGRAM, "-", input=text), 0, "at once").stdout
    for size in [1, 7, 4096]:
        with CoProcess() as run:
            for at in range(0, len(text), size):
                run.write(text[at : at + size])
            need(run.end() == (whole, "", 0), "in pieces of", size)


def test_pipe_json(tmp):
    """One object for each line that is written."""
    with CoProcess("--json") as run:
        for line, wanted in [
            ("power-on 1", {"call": "power-on", "number": 0, "processor": None, "line": 1}),
            ("cpu 0 loadiwkey 11*48", {"call": "step", "instruction": "loadiwkey xmm2, xmm1", "processor": 0, "zf": 0}),
            ("cpu 0 cpl 3 loadiwkey 11*48", {"number": 12, "refusal": "gp", "zf": None, "line": 3}),
            ("expect refused gp", {"type": "expect", "met": True, "found": None}),
            ("cpu 0 encodekey128 22*16 -> handle", {"name": "handle", "zf": 0}),
            ("say \"Words\" \\ caf\u00e9 \U0001f511", {"type": "say", "text": "\"Words\" \\ caf\u00e9 \U0001f511"}),
            ("cpu 0 show rip", {"type": "show", "what": "rip", "value": 10, "bytes": None}),
            ("show 0102", {"type": "show", "what": "bytes", "value": None, "bytes": "0102"}),
        ]:
            run.write(f"{line}\n")
            found = json.loads(run.until(b"\n"))
            need(found.items() >= wanted.items(), line, "gives", found)
        out, err, status = run.end()
        need(status == 0 and err == "" and json.loads(out)["type"] == "summary", status, out, err)


# ---- Ctrl-C


def whole_lines(text):
    """The statements that were printed, one below the other: each with its answer, none cut."""
    lines = re.findall(r"^ +(\d+)  expect memory = memory: met$", text, re.M)
    need(lines == [str(n) for n in range(1, len(lines) + 1)], "statements are missing")
    need(re.sub(r"^ +\d+  expect memory = memory: met\n", "", text, flags=re.M).startswith("\n"), "a line is cut:", text[-200:])
    return len(lines)


def wait_for(condition):
    end = time.monotonic() + PATIENCE
    while not condition():
        need(time.monotonic() < end, "nothing happens")
        time.sleep(0.02)


def summary_of(text):
    return text.splitlines()[-1]


def test_interrupted_waiting(tmp):
    """While it waits for a line."""
    with CoProcess() as run:
        run.write("power-on 1\n")
        run.until(b"persistent storage\n")
        run.process.send_signal(signal.SIGINT)
        out, err, status = run.end()
        need(status == 130 and err == "", status, err)
        need(out == "\n1 lines, 1 calls, 0 of them refused; 0 expectations, 0 of them not met; interrupted\n", out)


def test_interrupted_running(tmp):
    """In the middle of a trace: the lines so far, whole, and the summary of just these."""
    (tmp / "long.trace").write_text("expect memory = memory\n" * 200_000)
    with open(tmp / "out", "w") as out:
        process = subprocess.Popen([PROGRAM, tmp / "long.trace"], stdout=out)
        wait_for(lambda: (tmp / "out").stat().st_size > 0)
        process.send_signal(signal.SIGINT)
        need(process.wait(PATIENCE) == 130, "status", process.returncode)
    text = (tmp / "out").read_text()
    count = whole_lines(text)
    need(0 < count < 200_000 and summary_of(text) == f"{count} lines, 0 calls, 0 of them refused; {count} expectations, 0 of them not met; interrupted",
         count, summary_of(text))


def test_interrupted_writing(tmp):
    """While nobody reads what it prints: nothing of that is lost."""
    (tmp / "long.trace").write_text("expect memory = memory\n" * 200_000)
    process = subprocess.Popen([PROGRAM, tmp / "long.trace"], stdout=subprocess.PIPE, text=True)
    full = fcntl.fcntl(process.stdout, fcntl.F_GETPIPE_SZ) - 4096  # it writes 4096 bytes at once
    wait_for(lambda: struct.unpack("i", fcntl.ioctl(process.stdout, termios.FIONREAD, bytes(4)))[0] > full)
    time.sleep(0.2)  # it is in the write that does not fit
    process.send_signal(signal.SIGINT)
    time.sleep(0.1)
    text, _ = process.communicate(timeout=PATIENCE)
    count = whole_lines(text)
    need(process.returncode == 130 and summary_of(text).startswith(f"{count} lines, "), process.returncode, count, summary_of(text))


def test_interrupted_json(tmp):
    with CoProcess("--json") as run:
        run.write("power-on 1\nexpect refused 1\n")
        run.until(b"\n")
        run.until(b"\n")
        run.process.send_signal(signal.SIGINT)
        out, _, status = run.end()
        summary = json.loads(out)
        need(status == 130 and (summary["status"], summary["interrupted"], summary["unmet"]) == (130, True, 1), status, out)


# ---- at a terminal


class Terminal:
    """A run that has a terminal of its own, as a shell starts it."""

    def __init__(self, *args, columns=80):
        self.pid, self.main = pty.fork()
        if self.pid == 0:
            fcntl.ioctl(0, termios.TIOCSWINSZ, struct.pack("HHHH", 24, columns, 0, 0))
            os.execv(PROGRAM, [str(PROGRAM), *args])
        self.shown = ""

    def type(self, keys):
        os.write(self.main, keys.encode())

    def read(self):
        """Whether there was more."""
        ready, _, _ = select.select([self.main], [], [], PATIENCE)
        need(ready, "nothing is shown; so far:", self.shown)
        try:
            some = os.read(self.main, 65536)
        except OSError as error:  # the end of a terminal
            need(error.errno == errno.EIO, error)
            some = b""
        self.shown += some.decode().replace("\r\n", "\n")
        return bool(some)

    def until(self, end):
        while end not in self.shown:
            need(self.read(), "it ended; so far:", self.shown)
        text, _, self.shown = self.shown.partition(end)
        return text

    def end(self):
        """The rest, and the status."""
        while self.read():
            pass
        os.close(self.main)
        return self.shown, os.waitstatus_to_exitcode(os.waitpid(self.pid, 0)[1])


def test_terminal(tmp):
    """An answer for each line, and one Ctrl-D ends it."""
    terminal = Terminal("-")
    terminal.type("power-on 1\n")
    terminal.until("0 done: 1 processor,")
    terminal.type("cpu 0 read 0x990\n")
    terminal.until("0 done: value 0,")
    terminal.type("\x04")
    shown, status = terminal.end()
    need(status == 0 and "2 lines, 2 calls, 0 of them refused" in shown, status, shown)


def test_terminal_bad_line(tmp):
    """Somebody who mistypes a line goes on; nothing of the bad line was done."""
    terminal = Terminal("-")
    terminal.type("power-on 1\n")
    terminal.until("0 done")
    for bad, said in [("powr-on 2", "standard input:2: 'powr-on' begins no statement"), ("cpu 0 encodekey128 00*16 -> handle now", "not 'now'")]:
        terminal.type(f"{bad}\n")
        terminal.until(said)
    terminal.type("cpu 0 aesenc128kl handle 00*16\n")
    terminal.until("'handle' is no name given before")
    terminal.type("cpu 0 encodekey128 00*16 -> handle\n")
    terminal.until("handle = 0000")
    terminal.type("cpu 0 aesenc128kl handle 00*16\n")
    terminal.until("ZF 0: the handle opens")
    terminal.type("\x04")
    shown, status = terminal.end()
    need(status == 2 and "6 lines, 3 calls, 0 of them refused; 0 expectations, 0 of them not met; 3 bad lines" in shown, status, shown)


def test_terminal_interrupted(tmp):
    terminal = Terminal("-")
    terminal.type("power-on 1\n")
    terminal.until("0 done")
    terminal.type("\x03")
    shown, status = terminal.end()
    need(status == 130 and "1 lines, 1 calls, 0 of them refused; 0 expectations, 0 of them not met; interrupted" in shown, status, shown)


def test_terminal_interrupted_early(tmp):
    """Directly behind a line, when that is or is not yet read: a terminal throws away at Ctrl-C what was typed. Its echo, ^C, may come behind the last line."""
    rng = random.Random(6)
    for _ in range(200):
        terminal = Terminal("-")
        terminal.type("say ready\n")
        terminal.until("ready\nready\n")
        terminal.type("say more\n")
        end = time.perf_counter() + rng.random() * 60e-6
        while time.perf_counter() < end:
            pass
        terminal.type("\x03")
        shown, status = terminal.end()
        need(status == 130 and shown.replace("^C", "", 1).endswith("; interrupted\n"), status, shown)


def test_narrow_terminal(tmp):
    """The progress keeps to one row."""
    (tmp / "long.trace").write_text("expect memory = memory\n" * 8000)
    terminal = Terminal("-q", str(tmp / "long.trace"), columns=12)
    shown, status = terminal.end()
    rows = re.findall(r"\r(line[^\x1b\r\n]*)\x1b\[K", shown)
    need(status == 0 and rows and all(len(row) <= 11 for row in rows), status, rows[:3], shown[-200:])


# ---- JSON


def objects(text):
    """The objects of a run, with the fields that each kind has and no others, the summary last."""
    found = [json.loads(line) for line in text.splitlines()]
    for item in found:
        need(list(item) == FIELDS[item["type"]], "fields:", item)
    need([item["type"] for item in found].count("summary") == 1 and found[-1]["type"] == "summary", "the summary is not the last object")
    return found


def modelled(text):
    """What the model says of each call, by its line."""
    trace = traces.Trace()
    for place, line in enumerate(text.splitlines(), 1):
        trace.number = None
        names = dict(trace.names)
        with contextlib.suppress(traces.Unmet):
            trace.run(line)
        if trace.number is not None and not re.match(r"\s*(cpu \S+ )?expect", line, re.I):
            yield place, line, trace, {name: value for name, value in trace.names.items() if names.get(name) is not value and value is not None}


def call_differs(found, line, trace, given):
    """What the model has otherwise."""
    numbers = {number: name for name, number in traces.REFUSALS.items()}
    idle = re.match(r"cpu .* step (empty|none)\b", line)
    cpuid = trace.cpuid_answer or [None] * 4
    wanted = {
        "number": trace.number,
        "refusal": numbers.get(trace.number),
        "zf": None if idle else trace.zf,
        "value": trace.value,
        "kind": trace.kind,
        **dict(zip(traces.CPUID_REGISTERS, cpuid)),
        "processor": trace.processor,
    }
    if given:
        [(wanted["name"], value)] = given.items()
        wanted["result"] = value.hex()
    return {key: (found[key], value) for key, value in wanted.items() if found[key] != value}


def check_json(text, what):
    """Every call of a trace as JSON against the model; how many there were."""
    result = command(PROGRAM, "--json", "-", input=text)
    found = objects(result.stdout)
    calls = {item["line"]: item for item in found if item["type"] == "call"}
    count = 0
    for place, line, trace, given in modelled(text):
        need(place in calls, what, "no object for line", place, line)
        differs = call_differs(calls[place], line, trace, given)
        need(not differs, f"{what}:{place}: {line}:", differs)
        count += 1
    summary = found[-1]
    need(count == len(calls) == summary["calls"] and summary["status"] == result.returncode, what, count, len(calls), summary)
    need(summary["refused"] == sum(item["number"] != 0 for item in calls.values()), summary)
    need(summary["lines"] == len(text.splitlines()), summary)
    return count


def test_json_traces(tmp):
    """All calls of all traces, and of random ones."""
    count = sum(check_json(file.read_text(), file.name) for file in traces.TRACES)
    for seed in [3, 4]:
        for kind in [traces.RandomTrace, traces.RandomKeyrings]:
            with contextlib.redirect_stdout(io.StringIO()) as text:
                kind(seed).run(150)
            count += check_json(text.getvalue(), f"{kind.__name__} {seed}")
    need(count > 1000, "calls:", count)


def random_record(rng):
    """A CPU record that no step is refused for."""
    return rng.randbytes(400) + bytes([0, model.CR4_KL | model.CR4_OSFXSR]) + bytes(6)


def test_json_instructions(tmp):
    """The instruction of a string, and its handle's address, as the second decoder and the model have them."""
    rng, strings = random.Random(5), [string for string in map(decoder.answer_string, decoder.vectors()) if string]
    steps = [(string, random_record(rng)) for string in strings for _ in range(3)]
    text = "".join(f"cpu 0 set record = {record.hex()}\ncpu 0 step {string.hex()}\n" for string, record in steps)
    found = objects(must(command(PROGRAM, "--json", "-", input=f"power-on 1\n{text}"), 0, "steps").stdout)[1:-1]
    need(len(found) == len(steps) > 1000, len(found))
    for item, (string, record) in zip(found, steps):
        wanted = decoder.decode(string)
        known = not wanted.startswith("refused")
        need(item["instruction"] == (wanted.partition(" ; ")[0] if known else None), string.hex(), item["instruction"], wanted)
        instruction = model.decode(string) if known else None
        address = model.effective_address(model.Cpu(record), instruction)[0] if known and instruction.use else None
        need(item["handle"] == address, string.hex(), wanted, item["handle"], address)


def test_json_text(tmp):
    """The words are those that are printed without it."""
    for file in traces.TRACES:
        printed = command(PROGRAM, file).stdout
        for item in objects(command(PROGRAM, "-j", file).stdout):
            if item["type"] == "call":
                need(item["text"] and all(f"        {line}\n" in printed for line in item["text"].splitlines()), file.name, item)


def test_json_quiet(tmp):
    """Without calls and expectations that are met; the summary counts them."""
    text = "power-on 1\nexpect done\nsay Words.\nshow 0102\nexpect refused 2\n"
    result = must(command(PROGRAM, "-j", "-q", "-", input=text), 1, "quiet")
    found = objects(result.stdout)
    need([item["type"] for item in found] == ["say", "show", "expect", "summary"] and found[-1]["calls"] == 1 and found[-1]["expects"] == 2, result.stdout)


def test_json_example(tmp):
    """What the description of the language shows."""
    shown = re.findall(r"```json\n(.*?)```", traces.LANGUAGE.read_text(), re.S)
    need(len(shown) == 1 and shown[0] in command(PROGRAM, "--json", "-", input=traces.language_examples()[0]).stdout, "TRACES.md shows other JSON")


def test_json_bytes(tmp):
    """Whatever bytes a trace has, what is printed is UTF-8 and JSON."""
    for said in [b"\xff\xfe", b"a\x80b", b"\xc0\xaf", b"\xed\xa0\x80", b"\xf4\x90\x80\x80", b"\xe2\x82", b"\x7f", "\u20ac \U0010ffff".encode()]:
        result = subprocess.run([PROGRAM, "--json", "-"], input=b"say " + said + b"\n", capture_output=True)
        need(result.returncode == 0, result.stderr)
        text = objects(result.stdout.decode())[0]["text"]
        need(text == said.decode(errors="replace") or "\ufffd" in text and b"\xef\xbf\xbd" not in said, said, text)


def test_json_bad_line(tmp):
    """The objects so far, and no summary; what is wrong goes to standard error."""
    result = must(command(PROGRAM, "--json", "-", input="power-on 1\nsleep well\nreset\n"), 2, "a bad line")
    need([json.loads(line)["call"] for line in result.stdout.splitlines()] == ["power-on"], result.stdout)
    need(result.stderr.startswith("standard input:2: expected old, new, junk"), result.stderr)


if __name__ == "__main__":
    harness.main(__file__, globals())
