"""What the scripts of this folder share: the worked programs, and how a program is run and what it ends with."""
import collections
import os
import resource
import subprocess
import tempfile

HERE = os.path.dirname(os.path.abspath(__file__))
EXAMPLES = os.path.join(HERE, "..", "..", "examples")

# the statuses that an answer may have, and how the text of each begins; 6 and 7 are told by what could not be given
STATUSES = {
    0: ("reaver,invariant,1\n", "reaver,accepted\n", "reaver,falsified,", "reaver,tour,", "node "),
    1: ("reaver,trace,1\n", "reaver,rejected,", "reaver,assertion,", "reaver,neverfalse\n"),
    2: ("reaver,unknown,1\n", "reaver,nodes,"),
    3: ("reaver,refused,",),
    4: ("reaver,usage\n",),
    5: ("reaver,readfault\n",),
    7: ("reaver,memory\n",),
    8: ("reaver,badfile,",),
    9: ("reaver,toolong,",),
    10: ("reaver,outgrown,",),
}
MEMORY = 7


def in_b(body):
    """A source of one node with one input, in one line."""
    return "node m(a: bool) returns (ok: bool); let " + body + " tel"


def in_v(variables, body):
    """The same with local flows."""
    return "node m(a: bool) returns (ok: bool); var " + variables + " let " + body + " tel"


TAUTOLOGY = in_b("ok = a or not a;")
EQUAL = """node main(a: bool) returns (ok: bool);
var x, y: int;
let
  x = 0 -> pre x + 1;
  y = 0 -> pre y + 1;
  ok = x = y;
tel
"""
DOUBLE = in_v(
    "x, y: int;",
    "x = 0 -> if a and pre x < 1000 then pre x + 1 else pre x; y = 0 -> if a and pre x < 1000 then pre y + 2 else pre y; ok = y <= 2000;",
)
ONE_LABEL = "type u = enum { U }; node m(a: u) returns (ok: bool); let ok = false -> true; tel"
EQUAL_FILE = """reaver,invariant,1
main,main
bits,tick,next,input:a:0,test:6:le,test:6:ge
columns,memory:2,memory:3
locations,2
control,2,0,1,0
entry,0
first,0
around,0
state,0
cases,3
go,1
when,3,4,0,1,3,0,2
by,1
by,1
dead
when,2,3,1,0
by,1,0,1
dead
when,3,4,1,0,3,0,2
by,1,1,1
control,2,0,0,1
entry,2
row,0,1,-1
row,0,-1,1
first,0
around,0
state,2
row,0,1,-1
row,0,-1,1
by,1,0,1
by,1,1,1
cases,3
go,1
when,3,4,0,1,3,0,2
by,1,0,1
by,1,1,1
dead
when,2,3,1,0
by,1,0,1,2,1
dead
when,3,4,1,0,3,0,2
by,1,1,1,3,1
end
"""

Outcome = collections.namedtuple("Outcome", "status out err seconds memory")


def example(name):
    """The bytes of a file of examples/."""
    with open(os.path.join(EXAMPLES, name), "rb") as text:
        return text.read()


def main_of(source):
    """The node of an example: main, or m."""
    return "main" if b"node main" in source else "m"


def write_files(folder, files):
    """Puts files into a folder."""
    for name, text in files.items():
        with open(os.path.join(folder, name), "wb") as out:
            out.write(text if isinstance(text, bytes) else text.encode())


def run(program, words, folder, settings=None, limits=(), seconds=120, out=subprocess.PIPE):
    """Runs the program in a folder, with settings of the environment and limits of the machine; a signal is a negative status."""

    def begin():
        for kind, most in limits:
            resource.setrlimit(kind, (most, most))
        resource.setrlimit(resource.RLIMIT_CPU, (seconds, seconds))

    environment = dict(os.environ, **(settings or {}))
    child = subprocess.Popen([program, *words], cwd=folder, env=environment, preexec_fn=begin, stdin=subprocess.DEVNULL, stdout=out, stderr=subprocess.PIPE)
    text = child.stdout.read() if child.stdout else b""
    err = child.stderr.read()
    _, status, used = os.wait4(child.pid, 0)
    child.returncode = os.waitstatus_to_exitcode(status)
    for pipe in (child.stdout, child.stderr):
        if pipe:
            pipe.close()
    return Outcome(child.returncode, text, err, used.ru_utime + used.ru_stime, used.ru_maxrss / 1024)


def quick_run(program, words, settings, path, err_path):
    """The status and the output of a short run, its output kept in a file: faster than `run`, for many of them."""
    actions = [
        (os.POSIX_SPAWN_OPEN, 1, path, os.O_WRONLY | os.O_CREAT | os.O_TRUNC, 0o600),
        (os.POSIX_SPAWN_OPEN, 2, err_path, os.O_WRONLY | os.O_CREAT | os.O_TRUNC, 0o600),
    ]
    child = os.posix_spawn(program, [program, *words], settings, file_actions=actions)
    status = os.waitstatus_to_exitcode(os.waitpid(child, 0)[1])
    with open(path, "rb") as out, open(err_path, "rb") as err:
        return status, out.read(), err.read()


def fault_of(outcome):
    """Why an outcome is none that the program may end with; None where it is one."""
    status, out = outcome.status, outcome.out
    if outcome.err:
        return "wrote to standard error"
    if status == MEMORY and out == b"":
        return None
    if status not in STATUSES:
        return "ended with status %d" % status
    if not out.startswith(tuple(begin.encode() for begin in STATUSES[status])):
        return "status %d with %r" % (status, out[:60])
    return None if out.endswith(b"\n") else "the last line has no end"


def built(name, source, flags):
    """The path of a library of this folder, built into a folder of its own for as long as this script runs."""
    folder = tempfile.mkdtemp(prefix="hostile-")
    path = os.path.join(folder, name)
    subprocess.run(["c++", "-std=c++17", "-O2", *flags, "-o", path, os.path.join(HERE, source), "-ldl"], check=True)
    return path


def refusing():
    """The library that refuses allocations and shortens writes."""
    return built("refuse.so", "refuse.cpp", ["-fPIC", "-shared"])
