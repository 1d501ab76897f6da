#!/bin/sh
# Builds the search for keys on the stack with one compiler and its options after the other, since what keylocker_clear_stack clears is their doing, and runs
# each; the first prints what calls leave. Called by make test-stack, which has built the objects that are given, and which says $CC.
set -e
cd "$(dirname "$0")/../../.."

work=build/secrets
mkdir -p "$work"
table=--table
ran=0

# with a compiler and its options, once as C11 alone and once with what the compiler and its C library add
search() {
    for standard in c11 gnu11; do
        program=$work/$(echo "$1 $standard $2" | tr -s ' ' _)
        $1 -std=$standard -Wall -Wextra -Werror $2 -Iinclude -o "$program" tests/host/secrets/*.c $objects
        "$program" $table
        table=
        ran=$((ran + 1))
    done
}

objects=$*
for compiler in "$CC" $(command -v clang >/dev/null && echo clang); do
    for options in -O0 -O2 -O3 "-O2 -fstack-protector-strong -fstack-clash-protection -D_FORTIFY_SOURCE=2"; do
        search "$compiler" "$options"
    done
done
search "$CC" "-O3 -flto"
echo "$ran programs searched the stack for keys"
