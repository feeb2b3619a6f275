#!/bin/sh
# The search through control states by reaver and by the peer reach.cpp, on the programs of sources.py:
#     bench/reach.sh PROGRAM [FAMILY N ..]
# PROGRAM is the path of reaver, or - to run the peer alone. It prints, for each source, the processor seconds of
# `PROGRAM prove SOURCE main` and of the peer, which builds the same functions without reading a text, and both answers:
# safe, or in how many instants the observer is first false. The two answers are to be the same. Each run has SECONDS_EACH
# processor seconds (120 where the environment says nothing); PARTS is the peer's third word.
# It needs g++, python3 and BuDDy (Debian: libbdd-dev).
set -eu
here=$(dirname "$0")
program=${1:?the path of reaver, or -}
shift
if [ $# = 0 ]; then
    set -- links 40 links 200 links 1000 links 2000 links-bad 40 counter 8 counter 12 counter 16 counter-bad 12 ring 64 \
        shared 30 modes 30
fi
SECONDS_EACH=${SECONDS_EACH:-120}
PARTS=${PARTS:-2000}
work=$(mktemp -d)
trap 'rm -rf "$work"' EXIT
g++ -O2 -o "$work/reach" "$here/reach.cpp" -lbdd

# Runs a command, and leaves its output in out, its status in status and its processor seconds in time.
measure() {
    status=0
    bash -c 'TIMEFORMAT="%U %S"; ulimit -t "$1"; out=$2; shift 2; time "$@" >"$out" 2>/dev/null' \
        measure "$SECONDS_EACH" "$work/out" "$@" 2>"$work/time" || status=$?
    time=$(awk 'END { printf "%.2f", $1 + $2 }' "$work/time")
}

# What reaver printed, as the peer says it.
answer() {
    case $(head -n 1 "$work/out") in
        reaver,invariant,1) echo safe ;;
        reaver,trace,1) echo "violated $(sed -n 's/^instants,//p' "$work/out")" ;;
        '') echo "none (status $status)" ;;
        *) head -n 1 "$work/out" ;;
    esac
}

printf '%-12s %5s  %9s  %-22s  %9s  %-22s %s\n' family n reaver answer peer answer layers
while [ $# -ge 2 ]; do
    python3 "$here/sources.py" "$1" "$2" >"$work/source.lus"
    ours=- ours_time=-
    if [ "$program" != - ]; then
        measure "$program" prove "$work/source.lus" main
        ours=$(answer) ours_time=$time
    fi
    measure "$work/reach" "$1" "$2" "$PARTS"
    theirs=$(sed -n 's/^[^:]*: \([^,]*\), .*/\1/p' "$work/out")
    layers=$(sed -n 's/.*, \([0-9]*\) layers.*/\1/p' "$work/out")
    printf '%-12s %5s  %9s  %-22s  %9s  %-22s %s\n' "$1" "$2" "$ours_time" "$ours" "$time" \
        "${theirs:-none (status $status)}" "$layers"
    shift 2
done
