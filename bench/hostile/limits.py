#!/usr/bin/env python3
"""Runs a linked program with little memory: `limits.py PROGRAM [--tenth] [--within SECONDS] [examples|sources]`

Every example is proved, and what is printed of it replayed or checked, and the hostile sources of bench/hostile.py are proved, with 40,
60, 100 and 200 MB of address space and a stack of 6 MB. Each has to end with its usual output and status, or with status 7 and
`reaver,memory`, nothing or a prefix of the usual output. Runs that usually take more than 2 seconds are tried at 40 MB alone.
`--tenth` tries every tenth of them, and those that usually take more than the told seconds (60 where they are not) are left out and
named. It prints a table of the runs at each limit, of the examples and of the hostile sources; below it those that ended in
another way. The exit status is 0 where there is none.
"""
import os
import resource
import signal
import sys
import tempfile

from running import EXAMPLES, HERE, MEMORY, example, main_of, run, write_files

sys.path.insert(0, os.path.join(HERE, ".."))
from hostile import SHAPES

MEGABYTE = 1_000_000
SPACES = (40, 60, 100, 200)
STACK = 6_000_000
LONG = 2


def limited(space):
    """The limits of a run with so many megabytes of address space."""
    return ((resource.RLIMIT_AS, space * MEGABYTE), (resource.RLIMIT_STACK, STACK))


def examples(part):
    """The examples, or each so many-th of them: names, nodes and sources."""
    names = [name for name in sorted(os.listdir(EXAMPLES)) if name.endswith(".lus")]
    return [(name, main_of(example(name)), example(name)) for name in names[::part]]


def sources(part):
    """The hostile sources in the same way."""
    return [(name, "m", SHAPES[name](1).encode()) for name in list(SHAPES)[::part]]


def kind_of(ended, usual):
    """usual, memory (`reaver,memory`), less (nothing or a prefix), or None."""
    if ended.err:
        return None
    if (ended.status, ended.out) == (usual.status, usual.out):
        return "usual"
    if ended.status != MEMORY:
        return None
    if ended.out == b"reaver,memory\n":
        return "memory"
    return "less" if usual.out.startswith(ended.out) else None


class Table:
    """The runs of some programs at each limit."""

    def __init__(self, program, folder, within):
        self.program, self.folder, self.within = program, folder, within
        self.counts = {space: {"usual": 0, "memory": 0, "less": 0} for space in SPACES}
        self.others, self.left_out = [], []

    def try_program(self, name, node, source):
        """Proves a program at each limit, and replays or checks what is printed."""
        write_files(self.folder, {"f.lus": source})
        words = ["prove", "f.lus", node]
        usual = run(self.program, words, self.folder, limits=[(resource.RLIMIT_STACK, STACK)], seconds=self.within)
        if usual.status in (-signal.SIGXCPU, -signal.SIGKILL):
            self.left_out.append(name)
            return
        self.try_words(name, words, usual)
        if usual.status in (0, 1):
            write_files(self.folder, {"d.csv": usual.out})
            words = ["replay" if usual.status else "check", "f.lus", node, "d.csv"]
            self.try_words(name, words, run(self.program, words, self.folder))

    def try_words(self, name, words, usual):
        """Runs a command at each limit."""
        for space in SPACES if usual.seconds <= LONG else SPACES[:1]:
            ended = run(self.program, words, self.folder, limits=limited(space))
            kind = kind_of(ended, usual)
            if kind:
                self.counts[space][kind] += 1
            else:
                self.others.append((name, words[0], space, ended.status, ended.out[:60], ended.err[:60]))

    def show(self, title):
        print(f"| {title}: address space, MB | runs | usual | Memory | nothing or a prefix |")
        print("|---|---|---|---|---|")
        for space, kinds in self.counts.items():
            print(f"| {space} | {sum(kinds.values())} | " + " | ".join(str(n) for n in kinds.values()) + " |")
        print("left out:", ", ".join(self.left_out) or "none")
        for other in self.others:
            print("ended otherwise:", *other)
        print("ended otherwise:", len(self.others), flush=True)


def main():
    words = [word for word in sys.argv[1:] if word != "--tenth"]
    part = 10 if "--tenth" in sys.argv else 1
    within = int(words[words.index("--within") + 1]) if "--within" in words else 60
    found = 0
    with tempfile.TemporaryDirectory() as folder:
        for title, programs in (("examples", examples), ("hostile sources", sources)):
            if title.split()[-1] in words or not {"examples", "sources"} & set(words):
                table = Table(os.path.abspath(words[0]), folder, within)
                for program in programs(part):
                    table.try_program(*program)
                table.show(title)
                found += len(table.others)
    return 1 if found else 0


if __name__ == "__main__":
    sys.exit(main())
