#!/bin/sh
# The safe programs of spacer.py, and examples with integers, by reaver and by the peer polyhedra.cpp, start-up included:
#     bench/polyhedra.sh PROGRAM [REPEATS [faulty]]
# PROGRAM is the path of reaver. It prints, for each program, the processor seconds of `PROGRAM prove SOURCE NODE` and of the
# peer, the least of REPEATS runs of each (5), both answers, and by how many seconds reaver is behind where both say safe. The
# peer reads the cases of a program, which polyhedra.py makes of equations written by hand and which are not timed. With the word `faulty`
# it runs programs that are not safe: none may be safe by the peer. No polyhedra show parity. SECONDS_EACH is the time that each
# run has (60), WIDENING the peer's second word. It needs g++, python3 and the Parma Polyhedra Library (Debian: libppl-dev).
set -eu
here=$(dirname "$0")
program=${1:?the path of reaver}
repeats=${2:-5}
SECONDS_EACH=${SECONDS_EACH:-60}
WIDENING=${WIDENING:-h79}
work=$(mktemp -d)
trap 'rm -rf "$work"' EXIT
g++ -O2 -o "$work/polyhedra" "$here/polyhedra.cpp" -lppl -lgmpxx -lgmp
python3 -B "$here/polyhedra.py" "$work" "$here/../examples" ${3:-} > "$work/names"

# The least processor time of some runs of a command, in seconds, in `time`; its output in out.
measure() {
    time=
    for repeat in $(seq "$repeats"); do
        bash -c 'TIMEFORMAT="%U %S"; ulimit -t "$1"; out=$2; shift 2; time "$@" >"$out" 2>/dev/null' \
            measure "$SECONDS_EACH" "$work/out" "$@" 2>"$work/time" || true
        time=$(awk -v least="$time" 'END { now = $1 + $2; printf "%.3f", least != "" && least < now ? least : now }' "$work/time")
    done
}

printf '%-26s %8s  %-18s %8s  %-10s %7s\n' program reaver answer peer answer behind
while read -r name node; do
    measure "$program" prove "$work/$name.lus" "$node"
    ours=$time
    case $(head -n 1 "$work/out") in
        reaver,invariant,1) answer=safe ;;
        reaver,trace,1) answer=violated ;;
        '') answer=none ;;
        *) answer=$(head -n 1 "$work/out") ;;
    esac
    measure "$work/polyhedra" "$work/$name.system" "$WIDENING"
    theirs=$(sed -n 's/,.*//p' "$work/out")
    behind=-
    if [ "$answer" = safe ] && [ "$theirs" = safe ]; then behind=$(awk "BEGIN { printf \"%.3f\", $ours - $time }"); fi
    printf '%-26s %8s  %-18s %8s  %-10s %7s\n' "$name" "$ours" "$answer" "$time" "${theirs:-none}" "$behind"
done < "$work/names"
