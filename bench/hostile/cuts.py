#!/usr/bin/env python3
"""Cuts and bends sources, traces and invariant files: `cuts.py PROGRAM [--tenth] [--most N] [rows | EXAMPLE ..]`

`rows`: every proper prefix of row [tautology]'s source but the empty one is refused as a bad text, the invariant file of row [equal
counters] cut after k records ends after k, and a table of changes of that file has the answers that stand beside them.

For each example: its source, and the trace or invariant file that `prove` prints of it, are cut after every byte, and every byte is
changed to each of ten others; and every number of a document is changed to others near it. A changed document is replayed or checked
with the source, a changed source with the document. What is printed has to be a stated refusal of the source, or exactly what the
independent reader of this folder prints: for a document that includes each fault of the document, and the first reason why it is
rejected. Where `prove` is quick, sources that are not refused are proved too, and the reader has to accept what is printed. Nothing
else may happen: no signal, no other status, no word on standard error.

Of a text with more than N changes (1,000 where it is not told, 100 with `--tenth`), N are taken by a generator with a fixed seed. It
prints a table: changes, how many were refused, faults of the document, judged by both, and proved; then every run that ended in another way.
The exit status is 0 where there is none.
"""
import itertools
import os
import random
import re
import sys
import tempfile

from reader.judge import Program, checked, flat_of, replayed
from running import EQUAL, EQUAL_FILE, EXAMPLES, TAUTOLOGY, Outcome, example, fault_of, main_of, quick_run, run, write_files

SEED = 20
MOST = 1_000
REFUSED = re.compile(
    rb"reaver,refused,(1,badtext|2,toodeep|3,leftout|5,unknownname|6,definedtwice|7,undefined|8,typeclash|9,nonlinear|10,clockclash"
    rb"|11,notobserver|12,recursive|15,toowide),(\d+)\n|reaver,refused,4,nonode\n|reaver,refused,13,cycle(,\d+(\.\d+)*)+\n"
    rb"|reaver,refused,14,toolarge,(instances|expanded|memories|inputs|labels|variables),\d+\n"
)
IN_SOURCES = b"(;)-, \n0xa=1"
IN_DOCUMENTS = b",\"\n\r-0129 \x80a"
QUICK = 0.1


def ten_others(byte, of):
    """Ten bytes of a list that are not the given one."""
    return [other for other in of if other != byte][:10]


def changes(text, of, most):
    """All prefixes and all changes of single bytes, or as many of them as are wanted."""
    count = 11 * len(text)
    chosen = range(count) if count <= most else sorted(random.Random(SEED).sample(range(count), most))
    for number in chosen:
        place, way = divmod(number, 11)
        if way == 0:
            yield text[:place]
        else:
            yield text[:place] + bytes([ten_others(text[place], of)[way - 1]]) + text[place + 1 :]


def numbers(text, most):
    """All changes of a number of a document to its neighbours, 0, 1 and 2, or as many as are wanted."""
    found = [(m.start(), m.end(), int(m.group())) for m in re.finditer(rb"(?<=,)-?[0-9]+(?=[,\n])", text)]
    ways = [(start, end, other) for start, end, value in found for other in {value - 1, value + 1, 0, 1, 2} - {value}]
    for start, end, other in ways if len(ways) <= most else random.Random(SEED).sample(ways, most):
        yield text[:start] + b"%d" % other + text[end:]


def is_refusal(out, source):
    """Whether a text tells a refusal of a source: a byte of it, or what has no byte."""
    match = REFUSED.fullmatch(out)
    return match is not None and (match.group(2) is None or int(match.group(2)) <= len(source))


class Tried:
    """The changes of one example, run and judged in a folder."""

    def __init__(self, program, folder, name):
        self.program, self.folder = program, folder
        self.source = example(name)
        self.node = main_of(self.source)
        self.counts = {"changes": 0, "refused": 0, "faults": 0, "judged": 0, "proved": 0}
        self.others = []
        write_files(folder, {"f.lus": self.source})
        first = run(program, ["prove", "f.lus", self.node], folder)
        self.document, self.quick = first.out, first.seconds < QUICK
        self.word = "replay" if first.status == 1 else "check"
        write_files(folder, {"d.csv": self.document})

    def ended(self, *words):
        path = [os.path.join(self.folder, name) for name in ("out", "err")]
        status, out, err = quick_run(self.program, list(words), {}, *path)
        return Outcome(status, out, err, 0, 0)

    def judged(self, flat, program, document):
        """What the independent reader prints."""
        return (replayed(flat, document) if self.word == "replay" else checked(program, document)).encode()

    def keep(self, what, ended, expected):
        self.others.append((what, ended.status, ended.out[:100], ended.err[:60], expected[:100]))

    def count(self, ended, expected, what):
        """Counts a run that had to end as the reader says."""
        self.counts["changes"] += 1
        if fault_of(ended) or ended.out != expected:
            self.keep(what, ended, expected)
        else:
            self.counts["faults" if ended.status == 8 else "judged"] += 1

    def documents(self, most):
        """Changed documents, over the source as it is."""
        flat = flat_of(self.source, self.node)
        program = None if self.word == "replay" else Program(flat)
        for document in itertools.chain(changes(self.document, IN_DOCUMENTS, most), numbers(self.document, most)):
            write_files(self.folder, {"d.csv": document})
            self.count(self.ended(self.word, "f.lus", self.node, "d.csv"), self.judged(flat, program, document), document)
        write_files(self.folder, {"d.csv": self.document})

    def sources(self, most):
        """Changed sources, with the document as it is; and proved where that is quick."""
        for source in changes(self.source, IN_SOURCES, most):
            write_files(self.folder, {"f.lus": source})
            ended = self.ended(self.word, "f.lus", self.node, "d.csv")
            if ended.status == 3 and not ended.err and is_refusal(ended.out, source):
                self.counts["changes"] += 1
                self.counts["refused"] += 1
                continue
            flat = flat_of(source, self.node)
            program = None if self.word == "replay" else Program(flat)
            self.count(ended, self.judged(flat, program, self.document), source)
            if self.quick:
                self.prove(flat, source)

    def prove(self, flat, source):
        """Proves a changed source, and judges what is printed."""
        ended = run(self.program, ["prove", "f.lus", self.node], self.folder, seconds=30)
        if ended.status == -24:
            return
        self.counts["proved"] += 1
        if ended.status == 0:
            holds = checked(Program(flat), ended.out) == "reaver,accepted\n"
        elif ended.status == 1:
            holds = replayed(flat, ended.out) == "reaver,falsified,%d\n" % (ended.out.count(b"\ninstant,") - 1)
        else:
            holds = ended.status == 2 and left_of(flat, ended.out)
        if fault_of(ended) or not holds:
            self.keep(source, ended, b"a document that holds")


def left_of(flat, out):
    """Whether the reader rejects an unknown document, read as an invariant file, at what is left alone."""
    if out.startswith(b"reaver,nodes,"):
        return True
    records = out.split(b"\n", 3)
    told = checked(Program(flat), b"reaver,invariant,1\n" + records[3])
    return re.match(r"reaver,rejected,(4,observer|6,multipliers),(\d+)", told) is not None


def rows(program, folder):
    """The rows: the words, the files, and what is to be printed; None where any bad text is."""
    records = EQUAL_FILE.splitlines()
    changed = lambda place, text: "".join(r + "\n" for r in records[:place] + [text] + records[place + 1 :])
    for k in range(1, len(TAUTOLOGY)):
        yield ["prove", "f.lus", "m"], TAUTOLOGY[:k], "", None
    yield ["prove", "f.lus", "m"], "", "", "reaver,refused,4,nonode"
    table = [("".join(r + "\n" for r in records[:k]), f"reaver,badfile,5,ends,{k}") for k in range(len(records))]
    table += [
        ("".join(r + "\n" for r in [records[1], records[0]] + records[2:]), "reaver,badfile,2,wrongkind,0"),
        (changed(5, "control,2,0,2,0"), "reaver,badfile,4,badnumber,5,3"),
        (changed(17, "by,1,0,2199023255552"), "reaver,accepted"),
        (changed(17, "by,1,0,2199023255553"), "reaver,badfile,4,badnumber,17,3"),
        (changed(23, "row,1152921504606846976,1,-1"), "reaver,rejected,7,inclusion,1,0"),
        (changed(23, "row,1152921504606846977,1,-1"), "reaver,badfile,4,badnumber,23,1"),
        (EQUAL_FILE + "end\n", "reaver,badfile,2,wrongkind,44"),
        (EQUAL_FILE, "reaver,accepted"),
        (EQUAL_FILE.replace("by,1,1,1,3,1", "by,1,1,1,3,2"), "reaver,rejected,6,multipliers,1,2,0"),
    ]
    for document, printed in table:
        yield ["check", "f.lus", "main", "d.csv"], EQUAL, document, printed


def try_rows(program, folder):
    """How many rows there are, and those that are answered in another way."""
    count, others, paths = 0, [], [os.path.join(folder, name) for name in ("out", "err")]
    for words, source, document, printed in rows(program, folder):
        write_files(folder, {"f.lus": source, "d.csv": document})
        status, out, err = quick_run(program, words, {}, *paths)
        count += 1
        bad_text = REFUSED.fullmatch(out) and out.startswith(b"reaver,refused,1,badtext,") and status == 3
        if err or not (bad_text if printed is None else out == printed.encode() + b"\n"):
            others.append((words, source[:60], document[-60:], status, out, printed))
    return count, others


def main():
    sys.setrecursionlimit(1_000_000)
    words = sys.argv[1:]
    most = MOST // 10 if "--tenth" in words else MOST
    if "--most" in words:
        most = int(words[words.index("--most") + 1])
        del words[words.index("--most") : words.index("--most") + 2]
    program, *wanted = [word for word in words if word != "--tenth"]
    program = os.path.abspath(program)
    found = 0
    with tempfile.TemporaryDirectory() as folder:
        os.chdir(folder)
        if not wanted or "rows" in wanted:
            count, others = try_rows(program, folder)
            print(f"rows: {count} tried, {len(others)} ended otherwise", *others, sep="\n  ", flush=True)
            found += len(others)
        print("| example | changes | refused | faults of the document | judged by both | proved and judged |")
        print("|---|---|---|---|---|---|")
        for name in [word for word in wanted if word != "rows"] or ([] if wanted else sorted(os.listdir(EXAMPLES))):
            if not name.endswith(".lus"):
                continue
            tried = Tried(program, folder, name)
            tried.documents(most)
            tried.sources(most)
            print("| %s | %s |" % (name[:-4], " | ".join(f"{n:,}" for n in tried.counts.values())), flush=True)
            for other in tried.others:
                print("  otherwise:", *other, flush=True)
            found += len(tried.others)
        os.chdir("/")
    print("ended otherwise:", found)
    return 1 if found else 0


if __name__ == "__main__":
    sys.exit(main())
