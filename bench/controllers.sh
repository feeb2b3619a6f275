#!/bin/bash
# Sources by reaver and by z3's Spacer on Horn clauses of the same source, start-up included:
#     bench/controllers.sh PROGRAM FILE ..
# PROGRAM is the path of reaver. For each FILE, whose node is `main`, or `m` where it has none, it prints the answers and user processor seconds
# of `PROGRAM prove FILE NODE` and of `z3 fp.engine=spacer` on what horn.py makes of FILE; then the sums over the files that both decide, and each
# disagreement, with which the status is 1. Each has SECONDS_EACH processor seconds (60) and MEGABYTES_EACH (4000), where the environment says
# nothing. It needs python3 and z3.
set -eu
here=$(dirname "$0")
program=${1:?the path of reaver}
shift
SECONDS_EACH=${SECONDS_EACH:-60}
MEGABYTES_EACH=${MEGABYTES_EACH:-4000}
work=$(mktemp -d)
trap 'rm -rf "$work"' EXIT

# The user processor seconds of a command, in `time`; its output in out.
measure() {
    bash -c 'TIMEFORMAT=%U; ulimit -t "$1"; ulimit -v $(("$2" * 1024)); out=$3; shift 3; time "$@" >"$out" 2>/dev/null' \
        measure "$SECONDS_EACH" "$MEGABYTES_EACH" "$work/out" "$@" 2>"$work/time" || true
    time=$(tail -n 1 "$work/time")
}

printf '%-34s %9s  %-10s %9s  %s\n' file reaver answer spacer answer
: > "$work/both"
: > "$work/disagreements"
for file in "$@"; do
    node=$(grep -q '^ *node main\b' "$file" && echo main || echo m)
    measure "$program" prove "$file" "$node"
    ours=$time
    case $(head -n 1 "$work/out") in
        reaver,invariant,*) answer=safe ;;
        reaver,trace,*) answer=violated ;;
        reaver,*) answer=$(head -n 1 "$work/out" | cut -d , -f 2) ;;
        *) answer=none ;;
    esac
    if python3 "$here/horn.py" "$file" "$node" > "$work/clauses.smt2" 2>/dev/null; then
        measure z3 fp.engine=spacer "$work/clauses.smt2"
        case $(head -n 1 "$work/out") in
            sat) theirs=safe ;;
            unsat) theirs=violated ;;
            *) theirs=none ;;
        esac
    else
        time=0
        theirs='not read'
    fi
    name=$(basename "$file")
    printf '%-34s %9s  %-10s %9s  %s\n' "$name" "$ours" "$answer" "$time" "$theirs"
    case "$answer $theirs" in
        'safe safe'|'violated violated') echo "$ours $time" >> "$work/both" ;;
        'safe violated'|'violated safe') echo "$name: reaver says $answer, Spacer $theirs" >> "$work/disagreements" ;;
    esac
done
awk '{ ours += $1; theirs += $2 } END { printf "both decide %d: reaver %.2f s, spacer %.2f s\n", NR, ours, theirs }' "$work/both"
echo "disagreements: $(wc -l < "$work/disagreements")"
cat "$work/disagreements"
test ! -s "$work/disagreements"
