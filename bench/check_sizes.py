#!/usr/bin/env python3
"""Writes a Lustre program and an invariant file for it, to time `check` by: `check_sizes.py FAMILY NUMBERS SOURCE INVARIANT`.

Each program has a node `main` and no integers, and each invariant is accepted. FAMILY with its NUMBERS is one of

    cases PAIRS COUNT         COUNT cases, from 2 to 2^PAIRS of them, that lead into one control set, in which PAIRS latches are equal to
                              PAIRS others: 3 * 2^PAIRS - 2 nodes. The time is to grow with the cases and the nodes, not with their product
    unreached PAIRS COUNT     one case, and in the record of that control set COUNT triples that its root does not reach, no two of one
                              meaning. They are to cost no node: `--nodes` may be far below COUNT
"""
import itertools
import sys


class Record:
    """The triples of a diagram, children first; references 0 and 1 are the constants."""

    def __init__(self):
        self.triples = []

    def node(self, var, lo, hi):
        """The reference of a new node, or the child where both are one."""
        if lo == hi:
            return lo
        self.triples.append((var, lo, hi))
        return len(self.triples) + 1

    def text(self, word, root):
        """The record with its root."""
        return ",".join(map(str, [word, root] + [number for triple in self.triples for number in triple]))


def source(pairs):
    """Latches p and q of inputs a and b that are asserted to be equal."""
    numbered = range(pairs)
    inputs = ", ".join([f"a{i}" for i in numbered] + [f"b{i}" for i in numbered])
    local = ", ".join([f"p{i}" for i in numbered] + [f"q{i}" for i in numbered])
    held = [f"p{i} = false -> pre a{i}" for i in numbered] + [f"q{i} = false -> pre b{i}" for i in numbered]
    equal = [f"assert not (a{i} xor b{i})" for i in numbered]
    ok = "ok = " + " and ".join(f"not (p{i} xor q{i})" for i in numbered)
    body = "".join(f"  {line};\n" for line in held + equal + [ok])
    return f"node main({inputs}: bool) returns (ok: bool);\nvar {local}: bool;\nlet\n{body}tel\n"


def head(pairs):
    """The records before the locations. The main tick is the first state bit, and the latches' memories follow: those of the inputs, which
    are the first flows."""
    states = ["tick", "next"]
    for memory in range(2 * pairs):
        states += [f"memory:{memory}:0", "next"]
    inputs = [f"input:a{i}:0" for i in range(pairs)] + [f"input:b{i}:0" for i in range(pairs)]
    return ["reaver,invariant,1", "main,main", ",".join(["bits"] + states + inputs), "columns", "locations,2"]


def location(control, cases):
    """A location without rows, with its cases, each a target and the record of its condition."""
    lines = [control, "entry,0", "first,0", "around,0", "state,0", f"cases,{len(cases)}"]
    for target, when in cases:
        lines += [f"go,{target}", when]
    return lines


def equal_latches(pairs):
    """The control set of all states after the first instant in which the latches are equal by pairs, and its root."""
    record = Record()
    first_q = 2 * (1 + pairs)
    after = {"": 1}
    for i in reversed(range(pairs)):
        longer = {}
        for rest, at in after.items():
            longer["0" + rest] = record.node(first_q + 2 * i, at, 0)
            longer["1" + rest] = record.node(first_q + 2 * i, 0, at)
        after = longer
    for i in reversed(range(pairs)):
        shorter = {}
        for prefix in sorted({word[:i] for word in after}):
            shorter[prefix] = record.node(2 * (1 + i), after[prefix + "0"], after[prefix + "1"])
        after = shorter
    return record, record.node(0, 0, after[""])


def condition(pairs, number, or_more):
    """The condition that the inputs a, the first of them the greatest bit, are a number, or at least that number."""
    record = Record()
    at = 1
    for i in reversed(range(pairs)):
        var = 2 * (1 + 2 * pairs) + i
        at = record.node(var, 0, at) if number >> (pairs - 1 - i) & 1 else record.node(var, at, int(or_more))
    return record.text("when", at)


def invariant(pairs, control, cases):
    """The first instant, whose cases lead into a control set, and that set, which leads into itself."""
    first = location("control,2,0,1,0", [(1, when) for when in cases])
    return "\n".join(head(pairs) + first + location(control, [(1, "when,1")]) + ["end", ""])


def cases(pairs, count):
    """One case for each of the first words, and one for all others."""
    record, root = equal_latches(pairs)
    conditions = [condition(pairs, number, False) for number in range(count - 1)] + [condition(pairs, count - 1, True)]
    return invariant(pairs, record.text("control", root), conditions)


def unreached(pairs, count):
    """Triples of different meanings behind those of the set."""
    record, root = equal_latches(pairs)
    own = set(record.triples)
    pool, left = [0, 1], count
    for bit in reversed(range(1 + 2 * pairs)):
        new = ((2 * bit, lo, hi) for lo in pool for hi in pool if lo != hi and (2 * bit, lo, hi) not in own)
        made = [record.node(*triple) for triple in itertools.islice(new, left)]
        pool, left = pool + made, left - len(made)
    if left:
        sys.exit("fewer pairs than so many triples need")
    return invariant(pairs, record.text("control", root), ["when,1"])


FAMILIES = {"cases": cases, "unreached": unreached}


def main():
    numbers = sys.argv[2:4]
    if len(sys.argv) != 6 or sys.argv[1] not in FAMILIES or not all(number.isdigit() for number in numbers):
        sys.exit(__doc__)
    pairs, count = map(int, numbers)
    if sys.argv[1] == "cases" and not 2 <= count <= 2**pairs:
        sys.exit(__doc__)
    with open(sys.argv[4], "w") as out:
        out.write(source(pairs))
    with open(sys.argv[5], "w") as out:
        out.write(FAMILIES[sys.argv[1]](pairs, count))


if __name__ == "__main__":
    main()
