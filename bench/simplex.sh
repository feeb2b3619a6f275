#!/bin/sh
# The searches for multipliers of rv_seek and the same ones by the peer farkas.cpp, a simplex on double-precision numbers:
#     bench/simplex.sh BENCH_SEEK [REPEATS [SUBJECT PREMISES COLUMNS CALLS ..]]
# BENCH_SEEK is the path of the program bench_seek. It prints, for each subject and size, the processor milliseconds of one call by both
# (the least of REPEATS runs, 3, less what a run of `none` takes, which makes the same premises and searches nothing, over the
# number of calls), the first over the second, and in how many calls both find something, which are to be the same. Each run has
# SECONDS_EACH processor seconds (120 where the environment says nothing). It needs g++.
set -eu
here=$(dirname "$0")
program=${1:?the path of bench_seek}
repeats=${2:-3}
if [ $# -ge 2 ]; then shift 2; else shift; fi
if [ $# = 0 ]; then
    set -- row 30 5 20000 refutation 30 5 20000 bound 30 5 20000 row 200 20 500 refutation 200 20 500 bound 200 20 500
fi
SECONDS_EACH=${SECONDS_EACH:-120}
work=$(mktemp -d)
trap 'rm -rf "$work"' EXIT
g++ -O2 -o "$work/farkas" "$here/farkas.cpp"

# The least processor time of some runs of a command, in seconds, in `time`; its output in out.
measure() {
    time=
    for repeat in $(seq "$repeats"); do
        bash -c 'TIMEFORMAT="%U %S"; ulimit -t "$1"; out=$2; shift 2; time "$@" >"$out" 2>/dev/null' \
            measure "$SECONDS_EACH" "$work/out" "$@" 2>"$work/time" || true
        time=$(awk -v least="$time" 'END { now = $1 + $2; printf "%.3f", least != "" && least < now ? least : now }' "$work/time")
    done
}

# The milliseconds of one call of a program, in `each`, and in how many calls it finds something, in `found`.
search() {
    measure "$1" none "$3" "$4" "$5"
    making=$time
    measure "$@"
    each=$(awk "BEGIN { printf \"%.4f\", 1000 * ($time - $making) / $5 }")
    found=$(sed -n 's/^[^:]*: \([0-9]*\) of .*/\1/p' "$work/out")
}

printf '%-12s %8s %8s %6s  %10s %7s  %10s %7s  %7s\n' subject premises columns calls rv_seek found peer found ratio
while [ $# -ge 4 ]; do
    search "$program" "$1" "$2" "$3" "$4"
    ours=$each our_found=$found
    search "$work/farkas" "$1" "$2" "$3" "$4"
    ratio=$(awk "BEGIN { if ($each > 0) printf \"%.2f\", $ours / $each; else print \"-\" }")
    printf '%-12s %8s %8s %6s  %10s %7s  %10s %7s  %7s\n' "$1" "$2" "$3" "$4" "$ours" "${our_found:-none}" "$each" "${found:-none}" "$ratio"
    shift 4
done
