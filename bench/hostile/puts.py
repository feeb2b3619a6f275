#!/usr/bin/env python3
"""Lets loads and puts of a linked program fail, and reads and writes be short: `puts.py PROGRAM [--tenth]`

Over row [accepted file], `prove` of row [equal counters] and `make 2000`: load 0 or load 1 fails because there is no such file, it is a
folder, or a read of it fails after any number of bytes; put 0 fails because standard output is full, closed, a pipe whose reader ends
early, or a write fails after any number of bytes. The statuses have to be 5, 5 and 6, and what is shown before a failing write exactly
the bytes that were taken of the usual output. Short reads and writes have to change nothing. A table tells each way with its runs; then
every run that ended in another way. The exit status is 0 where there is none.
"""
import fcntl
import os
import subprocess
import sys
import tempfile

from running import EQUAL, EQUAL_FILE, quick_run, refusing, write_files

CHECK = ["check", "f.lus", "main", "i.csv"]
PROVE = ["prove", "f.lus", "main"]
READ_FAULT = (5, b"reaver,readfault\n", b"")


class Table:
    """Runs of a program in a folder, counted by the way in which something fails."""

    def __init__(self, program, library, folder, stride):
        self.program, self.library, self.stride = program, library, stride
        self.paths = (os.path.join(folder, "out"), os.path.join(folder, "err"))
        self.runs, self.others = {}, []

    def run(self, words, **settings):
        told = {name: str(value) for name, value in settings.items()}
        return quick_run(self.program, words, dict(told, LD_PRELOAD=self.library), *self.paths)

    def add(self, way, expected, ended):
        """Counts a run, and keeps it where it did not end as it has to."""
        self.runs[way, expected[0]] = self.runs.get((way, expected[0]), 0) + 1
        if ended != expected:
            self.others.append((way, ended[0], ended[1][:60], ended[2][:60]))


def loads(table):
    """Loads that fail."""
    for number, place, words in ((0, 1, CHECK), (1, 3, CHECK), (0, 1, PROVE)):
        for way, name in (("no such file", "none"), ("a folder", "."), ("a name of no bytes", ""), ("a name of 5,000 bytes", "n" * 5000)):
            changed = words[:place] + [name] + words[place + 1 :]
            table.add(f"load {number}: {way}", READ_FAULT, table.run(changed))
    first, both = len(EQUAL), len(EQUAL) + len(EQUAL_FILE)
    for after in range(0, both + 1, table.stride):
        table.add(f"load {0 if after <= first else 1}: a read fails after any number of bytes", READ_FAULT, table.run(CHECK, FAIL_READ=after))
    for words in (CHECK, PROVE):
        usual = table.run(words)
        for most in (1, 2, 7, 100):
            table.add("short reads", usual, table.run(words, SHORT_READ=most))


def puts(table):
    """Puts that fail, and writes that take less."""
    for words in (CHECK, PROVE, ["make", "3"]):
        usual = table.run(words)
        for after in range(0, len(usual[1]), table.stride):
            table.add("put 0: a write fails after any number of bytes", (6, usual[1][:after], b""), table.run(words, FAIL_WRITE=after))
        for most in (1, 2, 7, 100):
            table.add("short writes", usual, table.run(words, SHORT_WRITE=most))
            for after in (0, 1, len(usual[1]) - 1):
                table.add("short writes, of which one fails", (6, usual[1][:after], b""), table.run(words, SHORT_WRITE=most, FAIL_WRITE=after))
        with open("/dev/full", "wb") as full:
            table.add("put 0: standard output is full", (6, None, b""), direct(table.program, words, full))
        closed = subprocess.run(["sh", "-c", 'exec "$@" >&-', "sh", table.program, *words], stderr=subprocess.PIPE)
        table.add("put 0: standard output is closed", (6, None, b""), (closed.returncode, None, closed.stderr))
        read_only = os.open("/dev/null", os.O_RDONLY)
        table.add("put 0: standard output takes no writes", (6, None, b""), direct(table.program, words, read_only))
        os.close(read_only)


def direct(program, words, out):
    """The status and what is told on standard error of a run whose output goes elsewhere."""
    done = subprocess.run([program, *words], stdout=out, stderr=subprocess.PIPE)
    return done.returncode, None, done.stderr


def pipes(table):
    """A pipe of one page whose reader ends after some bytes, before the whole is written."""
    usual = table.run(["make", "2000"])
    for taken in (0, 1, 100, 5000, 20000):
        reading, writing = os.pipe()
        fcntl.fcntl(writing, fcntl.F_SETPIPE_SZ, 4096)
        child = subprocess.Popen([table.program, "make", "2000"], stdout=writing, stderr=subprocess.PIPE)
        os.close(writing)
        text = b""
        while len(text) < taken:
            text += os.read(reading, min(taken - len(text), 4096))
        os.close(reading)
        err = child.communicate()[1]
        table.add("put 0: a pipe whose reader ends early", (6, usual[1][:taken], b""), (child.returncode, text, err))


def main():
    stride = 10 if "--tenth" in sys.argv else 1
    program = os.path.abspath([word for word in sys.argv[1:] if word != "--tenth"][0])
    with tempfile.TemporaryDirectory() as folder:
        write_files(folder, {"f.lus": EQUAL, "i.csv": EQUAL_FILE})
        os.chdir(folder)
        table = Table(program, refusing(), folder, stride)
        loads(table)
        puts(table)
        pipes(table)
        os.chdir("/")
    print("| what fails | status | runs |")
    print("|---|---|---|")
    for (way, status), runs in table.runs.items():
        print(f"| {way} | {status} | {runs:,} |")
    for other in table.others:
        print("ended otherwise:", *other)
    print("ended otherwise:", len(table.others))
    return 1 if table.others else 0


if __name__ == "__main__":
    sys.exit(main())
