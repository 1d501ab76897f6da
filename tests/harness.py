"""What the test files of the programs share: commands, what is demanded of them, and a line for each test."""

import subprocess
import sys
import tempfile
import traceback
from pathlib import Path

ROOT = Path(__file__).resolve().parent.parent
PROGRAM = ROOT / "build/keylocker-simulator"
HEADER = ROOT / "include/keylocker.h"
STRICT = ["-Wall", "-Wextra", "-pedantic", "-Werror"]


class Failed(Exception):
    pass


def need(condition, *what):
    if not condition:
        raise Failed(" ".join(map(str, what)))


def command(*args, **options):
    return subprocess.run([str(arg) for arg in args], capture_output=True, text=True, **options)


def must(result, status, what):
    need(result.returncode == status, what, "exit status", result.returncode, "not", status, "\n", result.stdout[-300:], result.stderr[-600:])
    return result


def main(file, names):
    """Runs the tests among a file's names, each with a folder of its own; what a test returns tells why it was skipped."""
    failed = 0
    for name, test in [(name, test) for name, test in names.items() if name.startswith("test_")]:
        with tempfile.TemporaryDirectory() as tmp:
            try:
                skipped = test(Path(tmp))
                print(f"{name[5:]}: {skipped or 'passed'}", flush=True)
            except Exception as error:  # the other tests still tell something
                failed += 1
                print(f"{name[5:]}: FAILED: {error if isinstance(error, Failed) else traceback.format_exc()}", flush=True)
    if failed:
        sys.exit(f"{Path(file).relative_to(ROOT)}: {failed} tests failed")
