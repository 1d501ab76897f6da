#!/bin/sh
# Proves a library for C with rt, the crate NAME_c and those below it, into target/staticlib/libNAME.a, and prints a line for each crate as it is proved. All
# that rt says is in build/prove-NAME.log; where a crate is not proved, the end of what was said of it is printed, too. The exit status is rt's.
#
#   prove.sh NAME
set -u
cd "$(dirname "$0")/.." || exit 2
name=$1 crate=$1_c log=build/prove-$1.log archive=target/staticlib/lib$1.a

one_more() {
    count=$((count + 1)) began=$(date +%s)
    echo "$count of $total $1"
}

# A crate of which rt has ended to speak. Those before it of which it said nothing were proved earlier, and nothing has changed since.
ended() {
    case " $left " in
    *" $1 "*)
        while [ "${left%% *}" != "$1" ]; do
            one_more "${left%% *}, unchanged"
            left=${left#* }
        done
        left=${left#"$1"}
        left=${left# }
        ;;
    esac
    one_more "$1$2"
}

# Reads what rt says: of each crate that it proves the line "crate NAME: modules loaded=..", and later what came of it.
report() {
    left=$(awk -v name="$crate" -f tools/below.awk crates.txt | tr '\n' ' ')
    left=${left% } count=0 began=$(date +%s) status=2 now="a crate"
    # shellcheck disable=SC2086 # a word for each crate
    total=$(set -- $left; echo $#)
    echo "lib$name.a: $total crates to prove; all that rt says is in $log"
    while IFS= read -r line; do
        case $line in
        "crate "*": modules loaded="*) now=${line#crate } now=${now%%:*} ;;
        "logic=proved"*) ended "$now" ", $(($(date +%s) - began)) s" ;;
        "logic=not-proved"*) ended "$now" " NOT PROVED" ;;
        "rt's exit status: "*) status=${line##* } ;;
        esac
    done
    return "$status"
}

if ! command -v rt >/dev/null; then
    echo "tools/prove.sh: rt, the command of the Rattle kit, is not on the PATH, and without it nothing is proved." >&2
    echo "README.md, section Use, has the kit's version, and what can be built over a libkeylocker.a that was made elsewhere." >&2
    exit 2
fi

# sh tells only the status of a pipe's last command, so rt's goes through the pipe
mkdir -p build
{ (cd "crates/$crate" && rt lib --cpu x86-64) 2>&1; echo "rt's exit status: $?"; } | tee "$log" | report
status=$?
if [ "$status" -ne 0 ]; then
    # behind a crate that is not proved rt says more, of those above it
    sed '/^logic=not-proved/q' "$log" | tail -n 40 >&2
    echo "tools/prove.sh: rt lib failed in crates/$crate; above is the end of what it said up to there, and $log has all of it" >&2
    exit "$status"
fi
mkdir -p target/staticlib
cp "crates/$crate/out/lib$crate.a" "$archive"
