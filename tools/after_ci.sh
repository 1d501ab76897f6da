#!/bin/sh
# Makes a library for C, target/staticlib/libNAME.a, right after rt ci has proved all crates. rt ci makes no such library, and rt lib would prove everything again,
# but rt ci leaves each library that C's is made of, crates/*/out/rlib: over these the crate NAME_c alone is proved and compiled, as rt lib does it.
#
#   after_ci.sh NAME  the exit status is 0 only where NAME_c is proved; all that was said is in build/after-ci-NAME.log
set -eu
cd "$(dirname "$0")/.."
crate=$1_c log=build/after-ci-$1.log archive=$PWD/target/staticlib/lib$1.a

kit=$(dirname "$(rt doc)")
uses=$(sed -n "s/^$crate staticlib: *//p" crates.txt)
set -- --crate-name "$crate" --crate-type staticlib --target x86_64-unknown-linux-gnu --cpu x86-64 \
    --antt-project "$kit/rattle/logic/antt-project.json" --logic-built "$kit/logic_built" --toolchain "$kit/toolchain" --jobs 2 \
    --extern "std=$kit/rlibs/std.rlib" -L "dependency=$kit/rlibs"
for used in $uses; do
    set -- "$@" --extern "$used=$PWD/crates/$used/out/rlib/$used.rlib"
done
for below in $(awk -v name="$crate" -f tools/below.awk crates.txt); do
    [ "$below" = "$crate" ] || set -- "$@" -L "dependency=$PWD/crates/$below/out/rlib"
done

mkdir -p build target/staticlib
echo "lib${crate%_c}.a: $crate over what rt ci has proved; all that is said is in $log"
(cd "crates/$crate" && "$kit/bin/rattle" build "$@" -o "$archive" src/lib.rt) >"$log" 2>&1 || {
    status=$?
    tail -n 40 "$log" >&2
    echo "tools/after_ci.sh: $crate was not proved, or not compiled; above is the end of what was said, and $log has all of it" >&2
    exit "$status"
}
