#!/usr/bin/env python3
"""Runs the simulator beside a program of your own, over pipes: each call is answered before the next one is made.

  coprocess.py [SIMULATOR]  keylocker-simulator of the PATH unless given

It seals four blocks through a handle, in CBC mode: what is to be encrypted next depends on the answer before. keylocker-traces(5) has the statements.
"""

import json
import subprocess
import sys

ENDED = "coprocess.py: the simulator has ended"

# NIST SP 800-38A, F.2.1
KEY = "2b7e151628aed2a6abf7158809cf4f3c"
IV = "000102030405060708090a0b0c0d0e0f"
BLOCKS = [
    "6bc1bee22e409f96e93d7e117393172a",
    "ae2d8a571e03ac9c9eb76fac45af8e51",
    "30c81c46a35ce411e5fbc1191a0a52ef",
    "f69f2445df4f9b17ad2b417be66c3710",
]


def read(simulator):
    """The next object; an empty line is the end of a simulator that has said on standard error what was wrong."""
    line = simulator.stdout.readline()
    return json.loads(line) if line else sys.exit(ENDED)


def call(simulator, statement):
    """The answer to one call, which has to be done and to leave ZF 0."""
    print(statement, file=simulator.stdin, flush=True)
    answer = read(simulator)
    if answer["type"] != "call" or answer["number"] != 0 or answer["zf"] == 1:
        sys.exit(f"coprocess.py: {statement}: {answer}")
    return answer


def xor(left, right):
    return f"{int(left, 16) ^ int(right, 16):032x}"


def seal(program):
    with subprocess.Popen([program, "--json", "-"], stdin=subprocess.PIPE, stdout=subprocess.PIPE, text=True) as simulator:
        call(simulator, "power-on 1")
        call(simulator, "cpu 0 loadiwkey 5a*48")
        call(simulator, f"cpu 0 encodekey128 {KEY} no-decrypt -> handle")
        sealed = IV
        for block in BLOCKS:
            sealed = call(simulator, f"cpu 0 cpl 3 aesenc128kl handle {xor(sealed, block)} -> sealed")["result"]
            print(sealed)
        simulator.stdin.close()
        summary = read(simulator)
    if simulator.returncode != 0:
        sys.exit(f"coprocess.py: the simulator ended with status {simulator.returncode}")
    print(f"{summary['calls']} calls, {summary['refused']} of them refused")


def main():
    try:
        seal(sys.argv[1] if len(sys.argv) > 1 else "keylocker-simulator")
    except BrokenPipeError:  # it was written to when it had ended already
        sys.exit(ENDED)


if __name__ == "__main__":
    main()
