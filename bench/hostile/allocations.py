#!/usr/bin/env python3
"""Refuses the allocations of a linked program one after another: `allocations.py PROGRAM [--tenth] [ROW ..]`

Each row is run once as it is, which tells how many allocations it asks for and what it answers. Then, for each number n up to that
count, it is run twice: with the n-th allocation refused, and with that one and all later ones refused (by forks of one run, as
`refuse.cpp` tells). A run has to end with the usual output and status, or with status 7 and `reaver,memory`, nothing or a prefix of
the usual output; never with a signal, never with another answer, and never with a word on standard error. `--tenth` tries every
tenth number alone; rows with more than MANY allocations are tried at a stride, which is printed.

It prints a table: allocations, stride, runs, usual answers, answers Memory shown as `reaver,memory`, and shown as nothing or a prefix; below a
row every run that ended in another way. The exit status is 0 where there is none.
"""
import os
import sys
import tempfile

from running import DOUBLE, EQUAL, EQUAL_FILE, ONE_LABEL, TAUTOLOGY, example, in_b, quick_run, refusing, write_files

# of a row with more allocations than this only so many are refused, at a stride: all would take longer than ten minutes
MANY = 30_000

UNTIL_SEVEN = "node m(a: bool) returns (ok: bool); var x: int; let x = 0 -> if a then pre x + 1 else 0; ok = x <> 7; tel"
PARITY = "node m(a: bool) returns (ok: bool); var x: int; let x = 0 -> pre x + 2; ok = x <> 7; tel"


def rows():
    """The rows by their names: the words, and the files that they name."""
    proved = lambda source, node="m": (["prove", "f.lus", node], {"f.lus": source})
    doors = {"f.lus": example("doors.lus"), "t.csv": example("doors.trace")}
    wrong = EQUAL_FILE.replace("by,1,1,1,3,1", "by,1,1,1,3,2")
    return {
        "tautology": proved(TAUTOLOGY),
        "equal counters": proved(EQUAL, "main"),
        "double step": proved(DOUBLE),
        "one label": proved(ONE_LABEL),
        "accepted file": (["check", "f.lus", "main", "i.csv"], {"f.lus": EQUAL, "i.csv": EQUAL_FILE}),
        "violated, without integers": proved(example("doors.lus")),
        "violated by a probe": proved(UNTIL_SEVEN),
        "violated, not by a probe": proved(example("mixer_leaks.lus"), "main"),
        "unknown": proved(PARITY),
        "refused": proved(in_b("ok = a + 1;")),
        "rejected file": (["check", "f.lus", "main", "i.csv"], {"f.lus": EQUAL, "i.csv": wrong}),
        "bad file": (["check", "f.lus", "main", "i.csv"], {"f.lus": EQUAL, "i.csv": EQUAL_FILE[:-4]}),
        "replay": (["replay", "f.lus", "m", "t.csv"], doors),
        "nodes": (["prove", "f.lus", "m", "--nodes", "1"], {"f.lus": DOUBLE}),
        "tour": (["tour", "3"], {}),
        "made": (["make", "40"], {}),
        "usage": (["prove"], {}),
    }


def told(path):
    """What the library tells at the end of a run: the numbers, and the runs that ended otherwise."""
    with open(path, errors="replace") as text:
        lines = text.read().splitlines()
    return [int(word) for word in lines[-1].split()[1:]], lines[:-1]


def tried(program, library, words, folder, tenth):
    """The stride, how many allocations a row asks for, how the runs with refusals ended, and those that ended otherwise."""
    count, usual, end = (os.path.join(folder, name) for name in ("count", "usual", "end"))
    settings = {"LD_PRELOAD": library, "REFUSE_COUNT": count}
    status, out, err = quick_run(program, words, settings, usual, end)
    every = (10 if tenth else 1) * (1 + told(count)[0][0] // MANY)
    settings.update(REFUSE_EACH=str(every), REFUSE_USUAL=usual, REFUSE_STATUS=str(status))
    again = quick_run(program, words, settings, os.path.join(folder, "again"), end)
    if again != (status, out, err) or err:
        return every, [0] * 7, ["the run itself ended with %d, not %d" % (again[0], status)]
    return every, *told(count)


def main():
    tenth = "--tenth" in sys.argv
    program, *wanted = [word for word in sys.argv[1:] if word != "--tenth"]
    program = os.path.abspath(program)
    library = refusing()
    table = rows()
    found = 0
    print("| row | allocations | stride | runs | that one: usual, Memory, nothing | and all later: usual, Memory, nothing |")
    print("|---|---|---|---|---|---|")
    for name in wanted or table:
        words, files = table[name]
        with tempfile.TemporaryDirectory() as folder:
            write_files(folder, files)
            os.chdir(folder)
            every, numbers, others = tried(program, library, words, folder, tenth)
            os.chdir("/")
        count, *kinds = numbers
        runs = sum(kinds) + len(others)
        ways = [", ".join(f"{n:,}" for n in kinds[first : first + 3]) for first in (0, 3)]
        print(f"| {name} | {count:,} | {every} | {runs:,} | {ways[0]} | {ways[1]} |", flush=True)
        for line in others:
            print(f"  {name}: {line}", flush=True)
        found += len(others)
    print("ended otherwise:", found)
    return 1 if found else 0


if __name__ == "__main__":
    sys.exit(main())
