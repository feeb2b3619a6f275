#!/bin/sh
# The worked programs by reaver and by z3's Spacer, start-up included:
#     bench/spacer.sh PROGRAM [ROUNDS]
# PROGRAM is the path of reaver. It prints, for each program of spacer.py, the processor milliseconds of `PROGRAM prove SOURCE NODE` and
# of `z3 fp.engine=spacer` on the clauses of the same equations, the least of ROUNDS runs of each (5), and both answers. Spacer has
# SECONDS_EACH seconds (20 where the environment says nothing). It needs python3 and z3.
set -eu
here=$(dirname "$0")
program=${1:?the path of reaver}
rounds=${2:-5}
SECONDS_EACH=${SECONDS_EACH:-20}
work=$(mktemp -d)
trap 'rm -rf "$work"' EXIT
python3 "$here/spacer.py" "$work" "$here/../examples" > "$work/names"

# The least processor time of some runs of a command, in milliseconds, in `time`; its output in out.
measure() {
    time=
    for round in $(seq "$rounds"); do
        bash -c 'TIMEFORMAT="%U %S"; ulimit -t "$1"; out=$2; shift 2; time "$@" >"$out" 2>/dev/null' \
            measure "$SECONDS_EACH" "$work/out" "$@" 2>"$work/time" || true
        now=$(awk 'END { printf "%d", ($1 + $2) * 1000 }' "$work/time")
        if [ -z "$time" ] || [ "$now" -lt "$time" ]; then time=$now; fi
        if [ "$now" -gt 2000 ]; then break; fi
    done
}

printf '%-26s %7s  %-22s %7s  %s\n' program reaver answer spacer answer
while read -r name node; do
    measure "$program" prove "$work/$name.lus" "$node"
    ours=$time
    case $(head -n 1 "$work/out") in
        reaver,invariant,1) answer=safe ;;
        reaver,trace,1) answer=violated ;;
        *) answer=$(head -n 1 "$work/out") ;;
    esac
    measure z3 fp.engine=spacer "$work/$name.smt2"
    case $(head -n 1 "$work/out") in
        sat) theirs=safe ;;
        unsat) theirs=violated ;;
        *) theirs=none ;;
    esac
    printf '%-26s %7s  %-22s %7s  %s\n' "$name" "$ours" "$answer" "$time" "$theirs"
done < "$work/names"
