#!/usr/bin/env python3
"""Rows for crates/rv_tests that try a tenth of what `cuts.py` and `puts.py` try: `gate_rows.py [PROGRAM]`

Each row of its standard input is printed, and below it the row that has to be printed. The answers are those of the specification's rows and
of the independent reader of this folder. Where a program is told, each row that no load or put fails is run with it as well, and rows whose
answer is another one are told at the end; the exit status is 0 where there is none.
"""
import os
import random
import re
import sys
import tempfile

from cuts import IN_DOCUMENTS, SEED, numbers, ten_others
from reader.judge import Program, checked, flat_of, replayed
from running import EQUAL, EQUAL_FILE, TAUTOLOGY, example, quick_run, write_files

IN_M = EQUAL.replace("node main(", "node m(")
FILE_IN_M = EQUAL_FILE.replace("main,main", "main,m")
STATUSES = {"accepted": 0, "falsified": 0, "rejected": 1, "assertion": 1, "neverfalse": 1, "refused": 3, "readfault": 5, "badfile": 8, "outgrown": 10}
COMMANDS = {"check": ["check", "f", "m", "t"], "replay": ["replay", "f", "m", "t"], "prove": ["prove", "f", "m"]}


def in_line(text):
    """A text as it stands in a row."""
    return text.replace("\n", "`").replace("\r", "^")


def told(printed):
    """How the tests tell what is printed and wholly shown."""
    name = re.match(r"reaver,(\w+)", printed).group(1)
    return f"{name} whole {STATUSES[name]} {in_line(printed)}"


def bad_text(text):
    """The answer on a proper prefix of row [tautology]'s source: its last word where no program goes on so, else its end."""
    last = re.search(r"[A-Za-z]*$", text).group()
    at = len(text) - len(last)
    broken = last and ((at == 0 and last != "node") or (at == 16 and last != "returns") or (at == 36 and last != "let") or (at == 47 and last != "or"))
    return told(f"reaver,refused,1,badtext,{at if broken else len(text)}\n")


def prefixes():
    for k in range(1, len(TAUTOLOGY), 10):
        yield "prove~" + TAUTOLOGY[:k], bad_text(TAUTOLOGY[:k])
    for k in (17, 20, 37, 48):
        yield "prove~" + TAUTOLOGY[:k], bad_text(TAUTOLOGY[:k])
    yield "prove~", told("reaver,refused,4,nonode\n")


def files():
    """The invariant file cut after every tenth record, and the table of changes."""
    records = FILE_IN_M.splitlines()
    whole = lambda lines: "".join(line + "\n" for line in lines)
    changed = lambda place, text: whole(records[:place] + [text] + records[place + 1 :])
    table = [(whole(records[:k]), f"reaver,badfile,5,ends,{k}") for k in [0, *range(3, 44, 10)]]
    table += [
        (whole([records[1], records[0]] + records[2:]), "reaver,badfile,2,wrongkind,0"),
        (changed(5, "control,2,0,2,0"), "reaver,badfile,4,badnumber,5,3"),
        (changed(17, "by,1,0,2199023255552"), "reaver,accepted"),
        (changed(17, "by,1,0,2199023255553"), "reaver,badfile,4,badnumber,17,3"),
        (changed(23, "row,1152921504606846976,1,-1"), "reaver,rejected,7,inclusion,1,0"),
        (changed(23, "row,1152921504606846977,1,-1"), "reaver,badfile,4,badnumber,23,1"),
        (FILE_IN_M + "end\n", "reaver,badfile,2,wrongkind,44"),
    ]
    for document, printed in table:
        yield "check~" + in_line(IN_M + "~" + document), told(printed + "\n")


def failing():
    """Load 0, load 1 and put 0 failing, over row [accepted file]."""
    over = in_line(IN_M + "~" + FILE_IN_M)
    yield "run~reaver check f m t~0~~" + over, told("reaver,readfault\n")
    yield "run~reaver check f m t~1~~" + over, told("reaver,readfault\n")
    yield "run~reaver check f m t~~0~" + over, "accepted failed 6 reaver,a"
    yield "run~reaver check f m t~~~" + over, told("reaver,accepted\n")


def bent(kind, source, document, count):
    """Changes of a document, judged by the independent reader."""
    chance = random.Random(SEED)
    flat = flat_of(source.encode(), "m")
    program = Program(flat) if kind == "check" else None
    for _ in range(count):
        place, way = chance.randrange(len(document)), chance.randrange(11)
        byte = ten_others(ord(document[place]), IN_DOCUMENTS.replace(b"\x80", b"~"))[way - 1]
        text = document[:place] + ("" if way == 0 else chr(byte) + document[place + 1 :])
        if "~" in text:
            continue
        judged = replayed(flat, text.encode()) if kind == "replay" else checked(program, text.encode())
        yield kind + "~" + in_line(source + "~" + text), told(judged)


def near(source, document, count):
    """Changes of a number of a document to others near it, judged by the independent reader, but faults of the document."""
    program = Program(flat_of(source.encode(), "m"))
    for text in numbers(document.encode(), count):
        judged = checked(program, text)
        if "badfile" not in judged:
            yield "check~" + in_line(source + "~" + text.decode()), told(judged)


def rows():
    yield from prefixes()
    yield from files()
    yield from failing()
    yield from bent("check", IN_M, FILE_IN_M, 60)
    yield from near(IN_M, FILE_IN_M, 120)
    yield from bent("replay", example("doors.lus").decode(), example("doors.trace").decode(), 30)


def differs(program, folder, row, answer):
    """What a program says otherwise of a row."""
    kind, rest = row.split("~", 1)
    if kind == "run":
        words, loads, puts, rest = rest.split("~", 3)
        kind = words.split()[1]
        if loads or puts:
            return None
    texts = [text.replace("`", "\n").replace("^", "\r") for text in rest.split("~")]
    write_files(folder, dict(zip("ft", texts)))
    ended = quick_run(program, COMMANDS[kind], {}, os.path.join(folder, "out"), os.path.join(folder, "err"))
    return None if told(ended[1].decode()) == answer and int(answer.split()[2]) == ended[0] else ended


def main():
    others = []
    with tempfile.TemporaryDirectory() as folder:
        os.chdir(folder)
        for row, answer in rows():
            print(row, row + " => " + answer, sep="\n")
            other = differs(sys.argv[1], folder, row, answer) if len(sys.argv) > 1 else None
            if other:
                others.append((row, answer, other))
        os.chdir("/")
    print(*others, sep="\n", end="", file=sys.stderr)
    return 1 if others else 0


if __name__ == "__main__":
    sys.exit(main())
