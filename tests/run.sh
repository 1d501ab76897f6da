#!/bin/sh
# The test command of the repository. It stops at the first failure. The tests of the C library come after rt ci and use what it has proved, so that nothing
# is proved twice; the last line is rt ci's verdict again, printed only where they passed too.
set -e
cd "$(dirname "$0")/.."

python3 tests/vectors_stdout.py --check
python3 tests/key_locker.py
python3 tests/decoder.py --check
python3 tests/scenarios.py --check

# What rt's other commands have left here comes back when rt ci ends, in place of what it has proved.
earlier=$(find crates -path 'crates/*/out/rlib' -prune)

# sh tells only the status of a pipe's last command
mkdir -p build
echo none >build/ci.status
{ rt ci && echo passed >build/ci.status; } | tee build/ci.log
[ "$(cat build/ci.status)" = passed ]

# An edit that cannot be applied or read shows nothing of a contract, and is no failure of rt ci's.
edits=$(sed -n 's/^rt: ok; .*must-fail edits: \([0-9]* refused[^;]*\).*/\1/p' build/ci.log)
bad=$(echo "$edits" | sed -n 's/.*, \([0-9]*\) bad.*/\1/p')
if [ -z "$edits" ] || [ "${bad:-0}" -gt 0 ]; then
    echo "tests/run.sh: each must-fail edit has to be refused, and of these rt ci says: ${edits:-nothing}" >&2
    exit 1
fi

# Behind these rlibs, which have no stamp, rt would prove everything again, and the next rt ci would bring them back.
if [ -z "$earlier" ]; then
    tools/after_ci.sh keylocker
    rm -rf crates/*/out/rlib
fi

make -j2 -Otarget test-host test-valgrind test-faults test-stack test-constants test-simulator test-run test-install
tail -n 1 build/ci.log
