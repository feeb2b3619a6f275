#!/bin/sh
# The check of the pump station's invariant by reaver, and of the same implications by z3 and cvc5:
#     bench/implications.sh PROGRAM [INVARIANT]
# PROGRAM is the path of reaver; the invariant is what it proves the station with, where none is given. It prints the processor
# milliseconds of each, start-up included, and what they answer. It needs python3, z3 and cvc5.
set -eu
here=$(dirname "$0")
program=${1:?the path of reaver}
station=$here/../examples/pump_station.lus
work=$(mktemp -d)
trap 'rm -rf "$work"' EXIT
if [ $# -ge 2 ]; then cp "$2" "$work/invariant"; else "$program" prove "$station" main > "$work/invariant"; fi
python3 "$here/implications.py" "$work/invariant" > "$work/script.smt2"
measure() {
    name=$1
    shift
    bash -c 'TIMEFORMAT="%U %S"; out=$1; shift; time "$@" >"$out" 2>/dev/null' measure "$work/out" "$@" 2>"$work/time" || true
    printf '%-7s %8s  %s\n' "$name" "$(awk 'END { printf "%d", ($1 + $2) * 1000 }' "$work/time")" "$(sort "$work/out" | uniq -c | tr -s ' \n' ' ')"
}
measure reaver "$program" check "$station" main "$work/invariant"
measure z3 z3 "$work/script.smt2"
measure cvc5 cvc5 --incremental "$work/script.smt2"
