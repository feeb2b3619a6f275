#!/usr/bin/env python3
"""Runs reaver on sources in which one part of the text could multiply another: `hostile.py PROGRAM [SHAPE ..]`

Each shape is tried at a quarter, half and whole of what the limits of a source allow (1,048,576 bytes, a nesting of 200, 4,000 instances, 200,000 expressions ..),
with 1 GB of address space and a stack of 6,000 KiB. It prints, for each, the processor seconds and the most memory, in MB, of the three runs, and how each answer
begins; `killed` where a run was ended by a signal or took longer than a minute. The last line names the shapes of which a run took more than 2 seconds or 300 MB, or was killed.
"""
import os
import resource
import sys
import tempfile

LONGEST = 1_048_576
SECONDS = 60


def node(inputs, local, body, name="m", outputs="ok: bool"):
    """The text of a node."""
    var = f"var {local};\n" if local else ""
    return f"node {name}({inputs}) returns ({outputs});\n{var}let\n{body}tel\n"


def names(letter, count):
    """Numbered names."""
    return [f"{letter}{i}" for i in range(count)]


def many(count, operand="x"):
    """At most one of many operands: the one expression that has as many as it likes."""
    return "#(" + ",".join([operand] * count) + ")"


def filled(most, text):
    """A shape whose text is as long as a part of a source may be, of at most that part of `most` parts."""

    def shape(f):
        low, high = 1, int(most * f)
        while low < high:
            count = (low + high + 1) // 2
            low, high = (count, high) if len(text(count)) <= LONGEST * f else (low, count - 1)
        return text(low)

    return shape


def long_type(count):
    """Flows in one group whose type has a long name."""
    a = names("a", count)
    t = "t" * 2 * count
    return f"type {t} = bool;\n" + node("x: bool", ",".join(a) + f":{t}", "".join(f"{i}=x;" for i in a) + "ok = x;\n")


def long_clock(count):
    """Flows in one group whose clock has a long name."""
    a = names("a", count)
    c = "c" * 2 * count
    return node(f"{c}: bool", "a: bool when " + c + "; " + ",".join(a) + f":bool when {c}", f"a = {c} when {c};" + "".join(f"{i}=a;" for i in a) + "ok = true;\n")


def leading_back(count):
    """Two nodes that call each other many times."""
    calls = lambda other: "o = " + many(count, f"{other}(x)") + ";\n"
    return node("x: bool", "", calls("b"), "a", "o: bool") + node("x: bool", "", calls("a"), "b", "o: bool") + node("x: bool", "", "ok = a(x);\n")


def ring(count):
    """Nodes each of which calls the next, and the last the first."""
    return "".join(node("x: bool", "", f"o = n{(i + 1) % count}(x);\n", f"n{i}", "o: bool") for i in range(count)) + node("x: bool", "", "ok = n0(x);\n")


def deep_instances(inner):
    """A chain of 3,900 instances, or a part of them, with many parts in the last."""

    def shape(count):
        instances = count * 3_900 // 60_000
        local, body = inner(count)
        nodes = [node("x: bool", local, body + "o = x;\n", "n0", "o: bool")]
        nodes += [node("x: bool", "", f"o = n{i - 1}(x);\n", f"n{i}", "o: bool") for i in range(1, instances)]
        return "".join(nodes) + node("x: bool", "", f"ok = n{instances - 1}(x);\n")

    return shape


def locals_of_one(count):
    """Locals, each defined by the one before it."""
    return node("x: bool", ",".join(names("a", count)) + ": bool", "a0=x;" + "".join(f"a{i}=a{i - 1};" for i in range(1, count)) + f"ok = a{count - 1} => x;\n")


def constants(count):
    """Constants, each of which is the one before it."""
    return "const c0 = 1;\n" + "".join(f"c{i}=c{i - 1};" for i in range(1, count)) + node("x: bool", "", "ok = x;\n")


def types(count):
    """Types, each of which is the one before it."""
    return "type t0 = bool;\n" + "".join(f"t{i}=t{i - 1};" for i in range(1, count)) + node("x: bool", "", "ok = x;\n")


def nodes(count):
    """Nodes that no one calls."""
    return "".join(node("x: bool", "", "o = x;\n", f"n{i}", "o: bool") for i in range(count)) + node("x: bool", "", "ok = x;\n")


def clocks(count):
    """A chain of clocks, each on the one before it."""
    local = "a0: bool;" + "".join(f"a{i}:bool when a{i - 1};" for i in range(1, count))
    body = "a0=x;" + "".join(f"a{i}=a{i - 1} when a{i - 1};" for i in range(1, count))
    return node("x: bool", local.rstrip(";"), body + "ok = x;\n")


def cycle(count):
    """Flows of which each needs the next at the same instant, and the last the first."""
    return node("x: bool", ",".join(names("a", count)) + ": bool", "".join(f"a{i}=a{(i + 1) % count};" for i in range(count)) + "ok = a0;\n")


def labels(count):
    """Enumerations of 200 labels."""
    return "type " + "".join(f"t{i}=enum {{{','.join(f'l{i}_{j}' for j in range(200))}}};\n" for i in range(count)) + node("x: bool", "", "ok = x;\n")


def undefined(count):
    """Names that nothing declares."""
    return node("x: bool", "", f"ok = #({','.join(names('z', count))});\n")


def within(before, after, most):
    """Operators within each other, as deep as may be, over many names."""

    def shape(f):
        depth = int(most * f)
        return lambda count: node("x: bool", "", "o = x;\n", "n", "o: bool") + node("x: bool", "", "ok = " + before * depth + many(count) + after * depth + ";\n")

    return lambda f: filled(190_000, shape(f))(f)


def equations(count):
    """Equations, each over the flow before it, that are decided."""
    return node("x: bool", ",".join(names("a", count)) + ": bool", "a0=x;" + "".join(f"a{i}=a{i - 1} and x;" for i in range(1, count)) + f"ok = a{count - 1} => x;\n")


def assertions(count):
    """Assertions that are decided."""
    return node("x,y: bool", "", "assert x or y;" * count + "ok = x or y;\n")


def pairs(count):
    """Inputs in pairs whose diagrams outgrow their limit: those of one side all stand before those of the other."""
    a, b = names("a", count), names("b", count)
    return node(f"{','.join(a + b)}: bool", "", "ok = " + " or ".join(f"({i} and {j})" for i, j in zip(a, b)) + ";\n")


def doubling(count):
    """Nodes each of which calls the one before it twice: more instances than there may be."""
    return (
        node("x: bool", "", "o = x;\n", "n0", "o: bool")
        + "".join(node("x: bool", "", f"o = n{i - 1}(x) or n{i - 1}(x);\n", f"n{i}", "o: bool") for i in range(1, count))
        + node("x: bool", "", f"ok = n{count - 1}(x);\n")
    )


def thresholds(count):
    """A counter beside many constants, each a threshold of its bounds."""
    return "const " + "".join(f"k{i}={i};" for i in range(count)) + node("x: bool", "c: int", "c = 0 -> if pre c < 9 then pre c + 1 else 0;\nok = c <= 9;\n")


def tests(count):
    """Comparisons of one counter with many numbers."""
    return node("x: bool", "c: int", f"c = 0 -> if pre c < 9 then pre c + 1 else 0;\nok = c < 10 or #({','.join(f'c<{i}' for i in range(10, 10 + count))});\n")


def deepest(depth):
    """The deepest tree within the limit on nesting: each call begins a chain of left operands."""
    text = "x"
    for d in range(depth, 0, -1):
        text = "n(" + text + " or x" * (depth - d) + ")"
    return node("x: bool", "", "o = x;\n", "n", "o: bool") + node("x: bool", "", "ok = " + text + " or x" * depth + ";\n")


SHAPES = {
    "long type": filled(60_000, long_type),
    "long clock": filled(60_000, long_clock),
    "leading back": filled(120_000, leading_back),
    "ring": filled(60_000, ring),
    "deep expressions": filled(60_000, deep_instances(lambda n: ("y: bool", "y = " + many(n) + ";\n"))),
    "deep assertions": filled(60_000, deep_instances(lambda n: ("", "assert x;" * n))),
    "deep flows": filled(60_000, deep_instances(lambda n: (",".join(names("a", n)) + ": bool", "".join(f"a{i}=x;" for i in range(n))))),
    "locals": filled(100_000, locals_of_one),
    "constants": filled(100_000, constants),
    "types": filled(100_000, types),
    "nodes": filled(60_000, nodes),
    "clocks": filled(60_000, clocks),
    "cycle": filled(100_000, cycle),
    "labels": filled(2_000, labels),
    "undefined": filled(190_000, undefined),
    "current within": within("current (", " when x)", 65),
    "calls within": within("n(", ")", 190),
    "comparisons within": within("((", ") = x)", 95),
    "-> within": within("((", ") -> x)", 95),
    "equations": filled(60_000, equations),
    "assertions": filled(50_000, assertions),
    "pairs": filled(40, pairs),
    "doubling": filled(60_000, doubling),
    "thresholds": filled(100_000, thresholds),
    "tests": filled(4_000, tests),
    "deepest": filled(200, deepest),
}


def limit():
    """What each run may take."""
    resource.setrlimit(resource.RLIMIT_AS, (1 << 30, 1 << 30))
    resource.setrlimit(resource.RLIMIT_STACK, (6_000 * 1024, 6_000 * 1024))
    resource.setrlimit(resource.RLIMIT_CPU, (SECONDS, SECONDS))


def run(program, source, out):
    """The processor seconds, the most memory in MB, and how the answer begins."""
    child = os.fork()
    if child == 0:
        limit()
        text = os.open(out, os.O_WRONLY | os.O_CREAT | os.O_TRUNC)
        os.dup2(text, 1)
        os.execv(program, [program, "prove", source, "m"])
    _, status, used = os.wait4(child, 0)
    if os.WIFSIGNALED(status):
        return used.ru_utime + used.ru_stime, used.ru_maxrss / 1024, "killed"
    with open(out, "rb") as text:
        first = text.readline().decode().strip()
    return used.ru_utime + used.ru_stime, used.ru_maxrss / 1024, ",".join(first.split(",")[:3])[:40]


def main():
    program = os.path.abspath(sys.argv[1])
    wanted = sys.argv[2:] or list(SHAPES)
    beyond = []
    with tempfile.TemporaryDirectory() as work:
        for name in wanted:
            seconds, memory, answers, size = [], [], [], 0
            for f in (0.25, 0.5, 1):
                source = os.path.join(work, "source.lus")
                text = SHAPES[name](f).encode()
                assert len(text) <= LONGEST, (name, len(text))
                size = len(text)
                with open(source, "wb") as out:
                    out.write(text)
                spent, most, answer = run(program, source, os.path.join(work, "out"))
                seconds.append(f"{spent:.2f}")
                memory.append(f"{most:.0f}")
                answers.append(answer)
                if spent > 2 or most > 300 or answer == "killed":
                    beyond.append(name)
            told = answers[0] if len(set(answers)) == 1 else " / ".join(answers)
            print(f"{name}: {', '.join(seconds)} s; {', '.join(memory)} MB; {size // 1000} kB; {told}", flush=True)
    print("beyond 2 s or 300 MB, or killed:", ", ".join(dict.fromkeys(beyond)) or "none")


if __name__ == "__main__":
    main()
