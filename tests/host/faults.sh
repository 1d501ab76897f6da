#!/bin/sh
# Builds the model with each planted fault of faults.h in turn, links it with the rest of the runner, and expects a difference.
# Called by make test-faults, which has built the runner without a fault. Arguments, such as --seed 7, go to every run.
set -e
cd "$(dirname "$0")/../.."

calls=60000
keyrings=20000
work=build/faults
mkdir -p "$work"
more=$*
found=0

# the files in which the fault is planted, and faults.c, which tells the runner
build() {
    objects=$(ls build/host/*.o)
    planted=
    for source in $(grep -l "FAULT($2)" tests/host/*.c) tests/host/faults.c; do
        object=$(basename "$source" .c).o
        $CC $CFLAGS -DFAULTY="$1" -c -o "$work/$object" "$source"
        objects=$(echo "$objects" | grep -v "^build/host/$object\$")
        planted="$planted $work/$object"
    done
    $CC -o "$work/runner" $objects $planted build/libkeylocker.a
}

# Whether the runner finds the fault; $how says where.
by_comparison() {
    status=0
    "$work/runner" "$@" $more >"$work/log" 2>&1 || status=$?
    call=$(sed -n 's/^difference at call \([0-9]*\): .*/\1/p' "$work/log")
    what=$(sed -n 's/^difference at call [0-9]*: //p' "$work/log")
    how="$how at call $call ($what)"
    [ "$status" -eq 1 ] && [ -n "$call" ]
}

by_guard() {
    by_comparison --guarded --calls 6000 --keyrings 600 && echo "$what" | grep -q 'guard: '
}

by_valgrind() {
    status=0
    how=" by valgrind and"
    valgrind --quiet --error-exitcode=3 --exit-on-first-error=yes "$work/runner" --calls 300 --keyrings 20 $more >"$work/log" 2>&1 || status=$?
    [ "$status" -eq 3 ] && grep -q "Invalid read" "$work/log"
}

search() {
    how=
    case "$1" in
    BEHIND_* | BEFORE_*) by_valgrind && by_guard ;;
    BESIDE_* | REWRITES_*) by_guard ;;
    KEYRING_*) by_comparison --calls 0 --keyrings "$keyrings" ;;
    *) by_comparison --calls "$calls" --keyrings 0 ;;
    esac
}

build/test_host --faults >"$work/list"
while read -r number name text; do
    if ! grep -q "FAULT($name)" tests/host/*.c; then
        echo "fault $number ($text): not planted anywhere"
        continue
    fi
    build "$number" "$name"
    if search "$name"; then
        echo "fault $number ($text): found$how"
        found=$((found + 1))
    else
        echo "fault $number ($text): NOT found$how (exit $status)"
    fi
done <"$work/list"

listed=$(wc -l <"$work/list")
declared=$(grep -c '^    X(' tests/host/faults.h)
echo "$found faults found of $listed that the runner lists and $declared that faults.h has"
[ "$found" -gt 0 ] && [ "$found" -eq "$listed" ] && [ "$listed" -eq "$declared" ]
