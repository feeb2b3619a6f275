#!/usr/bin/env python3
"""Runs `check` and `replay` on documents as long as may be: `documents.py PROGRAM [--tenth] [SHAPE ..]`

Each shape fills a quarter, half and all of the 67,108,864 bytes that a document may have with one kind of record, or field, over row
[equal counters]'s source or one with many variables, within 1 GB of address space. It prints the seconds of processor, the most memory in
MB and how the answer begins, of the three; `--tenth` takes a tenth of the bytes. The last line names the shapes whose time or memory
grew more than the file did by half, or that ended in a way that is none; the exit status is 0 where there is none.
"""
import os
import random
import resource
import sys
import tempfile

from running import EQUAL, fault_of, run, write_files

LONGEST = 67_108_864
GIGABYTE = 1 << 30
HEAD = "reaver,invariant,1\nmain,main\nbits,tick,next,input:a:0,test:6:le,test:6:ge\ncolumns,memory:2,memory:3\n"
WIDE = 40
WIDE_SOURCE = "node main(%s: bool) returns (ok: bool); let ok = true; tel" % ",".join("i%d" % i for i in range(WIDE))
WIDE_HEAD = "reaver,invariant,1\nmain,main\nbits,tick,next,%s\ncolumns\n" % ",".join("input:i%d:0" % i for i in range(WIDE))
TRACE = "node main(a: bool) returns (ok: bool); let ok = a or not a; tel"
BOOLEAN_TRACE = "reaver,trace,1\nmain,main\nstarts,0\ninputs,a\ninstants,%d\n"
INTEGER = "node main(i: int) returns (ok: bool); var s: int; let s = pre i; ok = s < 0 or s >= 0; tel"
INTEGER_TRACE = "reaver,trace,1\nmain,main\nstarts,1\nstart,0,-9223372036854775808\ninputs,i\ninstants,%d\n"
LONG_ROW = "row,-1152921504606846976,-1073741824,-1073741824\n"
EMPTY = "control,0\nentry,0\nfirst,0\naround,0\nstate,0\n"


def filled(front, part, back, size):
    """A part repeated between a front and a back, as often as there is room."""
    return front + part * ((size - len(front) - len(back)) // len(part)) + back


def counted(front, part, size):
    """The same behind a count of how often."""
    count = (size - len(front) - 20) // len(part)
    return front % count + part * count + "end\n"


def locations(one, size):
    """As many locations as there may be, or as there is room for."""
    count = min(4096, (size - len(HEAD) - 30) // len(one))
    return HEAD + f"locations,{count}\n" + one * count + "end\n"


def rows(size):
    """Locations of 1,024 rows of the longest numbers."""
    return locations("control,0\nentry,1024\n" + LONG_ROW * 1024 + "first,0\naround,0\nstate,0\ncases,0\n", size)


def pairs(size):
    """Locations whose state rows are each proved by 256 pairs of the longest weights."""
    by = "by,1073741824," + ",".join(f"{768 + i},2199023255552" for i in range(256)) + "\n"
    row = "row,0,0,0\n"
    return locations("control,0\nentry,1024\n" + row * 1024 + "first,0\naround,0\nstate,1024\n" + row * 1024 + by * 1024 + "cases,0\n", size)


def short_pairs(size):
    """The same of the shortest weights, over the first rows."""
    by = "by,1," + ",".join(f"{i},1" for i in range(256)) + "\n"
    row = "row,0,0,0\n"
    return locations("control,0\nentry,256\n" + row * 256 + "first,0\naround,0\nstate,1024\n" + row * 1024 + by * 1024 + "cases,0\n", size)


def entries(entry):
    """A location with as many entries as there is room for."""

    def shape(size):
        front = HEAD + "locations,1\n" + EMPTY.replace("control,0", "control,1") + "cases,%d\n"
        return counted(front, entry, size)

    return shape


def triples(head, word, part):
    """One record of as many triples as there is room for."""

    def shape(size):
        front = head + "locations,1\n" + ("control,1" if word == "control" else EMPTY + "cases,1\ndead\nwhen,1")
        back = "\nentry,0\nfirst,0\naround,0\nstate,0\ncases,0\nend\n" if word == "control" else "\nby,1\nend\n"
        return filled(front, part, back, size)

    return shape


def layered(size):
    """One diagram all of whose nodes the root reaches: layers over 40 variables, their children by chance."""
    chance = random.Random(20)
    front = WIDE_HEAD + "locations,1\ncontrol,1\nentry,0\nfirst,0\naround,0\nstate,0\ncases,1\ndead\nwhen,"
    count = (size - len(front) - 60) // 22
    layer, text, nodes = max(1, count // WIDE), [], 2
    below = (0, 2)
    for variable in range(WIDE + 1, 1, -1):
        first = nodes
        for number in range(layer):
            low = below[0] + (2 * number) % (below[1] - below[0])
            high = below[0] + chance.randrange(below[1] - below[0])
            text.append(f",{variable},{low},{high}")
            nodes += 1
        below = (first, nodes)
    return front + str(nodes - 1) + "".join(text) + "\nby,1\nend\n"


SHAPES = {
    "rows of the longest numbers": ("check", EQUAL, rows),
    "`by` of 256 pairs of the longest numbers": ("check", EQUAL, pairs),
    "`by` of 256 pairs of the shortest": ("check", EQUAL, short_pairs),
    "dead entries": ("check", EQUAL, entries("dead\nwhen,0\nby,1\n")),
    "go entries": ("check", EQUAL, entries("go,0\nwhen,1\n")),
    "loop entries": ("check", EQUAL, entries("loop\nwhen,0\n")),
    "entries of one diagram of four nodes": ("check", EQUAL, entries("dead\nwhen,5,4,0,1,3,0,2,2,0,3,0,0,4\nby,1,0,1\n")),
    "one `control` of equal triples": ("check", EQUAL, triples(HEAD, "control", ",0,0,1")),
    "one `when` of equal triples": ("check", EQUAL, triples(HEAD, "when", ",4,0,1")),
    "one `when` of a reached diagram over 40 variables": ("check", WIDE_SOURCE, layered),
    "one `bits` record": ("check", EQUAL, lambda size: filled("reaver,invariant,1\nmain,main\nbits", ",tick", "\n", size)),
    "a number of all digits": ("check", EQUAL, lambda size: filled(HEAD + "locations,", "9", "\n", size)),
    "commas": ("check", EQUAL, lambda size: "," * size),
    "quotes": ("check", EQUAL, lambda size: '"' * size),
    "empty lines": ("check", EQUAL, lambda size: "\n" * size),
    "a quoted name": ("check", EQUAL, lambda size: filled('reaver,invariant,1\nmain,"', "m", '"\n', size)),
    "instants of a Boolean": ("replay", TRACE, lambda size: counted(BOOLEAN_TRACE, "instant,true\n", size)),
    "instants of the longest numbers": ("replay", INTEGER, lambda size: counted(INTEGER_TRACE, "instant,-9223372036854775808\n", size)),
    "one `inputs` record": ("replay", TRACE, lambda size: filled("reaver,trace,1\nmain,main\nstarts,0\ninputs", ",a", "\n", size)),
}


def tried(program, folder, shape, sizes):
    """The runs of a shape at each size."""
    word, source, make = SHAPES[shape]
    ended = []
    for size in sizes:
        text = make(size)
        assert len(text) <= LONGEST, shape
        write_files(folder, {"f.lus": source, "d.csv": text})
        del text
        ended.append(run(program, [word, "f.lus", "main", "d.csv"], folder, limits=[(resource.RLIMIT_AS, GIGABYTE)]))
    return ended


def is_beyond(ended):
    """Whether a run ended in a way that is none, or with Memory, or time or memory grew by more than half more than the file."""
    if any(fault_of(one) or one.status == 7 for one in ended):
        return True
    first, last = ended[0], ended[-1]
    return last.seconds > 6 * max(first.seconds, 0.05) or last.memory > 6 * max(first.memory, 10)


def main():
    part = 10 if "--tenth" in sys.argv else 1
    program, *wanted = [word for word in sys.argv[1:] if word != "--tenth"]
    beyond = []
    sizes = [LONGEST // part // k for k in (4, 2, 1)]
    print("| document | seconds | MB | answer |")
    print("|---|---|---|---|")
    with tempfile.TemporaryDirectory() as folder:
        for shape in wanted or SHAPES:
            ended = tried(os.path.abspath(program), folder, shape, sizes)
            answers = list(dict.fromkeys(one.out[:40].decode("ascii", "replace").strip() or "status %d" % one.status for one in ended))
            seconds, memory = ", ".join("%.2f" % one.seconds for one in ended), ", ".join("%.0f" % one.memory for one in ended)
            print(f"| {shape} | {seconds} | {memory} | {' / '.join(f'`{a}`' for a in answers)} |", flush=True)
            if is_beyond(ended):
                beyond.append(shape)
        if part == 1 and not wanted:
            write_files(folder, {"f.lus": EQUAL, "d.csv": "\n" * (LONGEST + 1)})
            longer = run(os.path.abspath(program), ["check", "f.lus", "main", "d.csv"], folder)
            print(f"| one byte more | {longer.seconds:.2f} | {longer.memory:.0f} | `{longer.out.decode().strip()}` |")
            if (longer.status, longer.out) != (9, b"reaver,toolong,%d\n" % (LONGEST + 1)):
                beyond.append("one byte more")
    print("beyond what grows as the file, or ended otherwise:", ", ".join(beyond) or "none")
    return 1 if beyond else 0


if __name__ == "__main__":
    sys.exit(main())
