#!/usr/bin/env python3
"""Prints a Lustre program to time the search through its control states by: `sources.py FAMILY N`.

Each program has a node `main`, and no integers before `counters`. FAMILY is one of

    links       N latches in a row, each a step after the one before; the observer is true
    links-bad   the same, whose observer is false once an input has come through all of them
    counter     a counter of N bits that starts again before all of them are true; the observer is true
    counter-bad the same without that, so that it is false after 2^N - 1 steps
    ring        N stations that hand a token on; no two of them have it
    modes       N latches, each with an input of its own, that are kept in one mode alone
    shared      the same with one input for all of them
    counters    N counters, of which an input of N labels chooses the one that steps
    memories    N counters up to ten: the one that is chosen is compared with ten, and steps where it is less
    chasing     N counters: the one that is chosen steps where it is less than a number and not five ahead of the next one
    unread      a counter up to ten beside N comparisons of inputs of their own, that nothing reads
    unread-one  the same with N comparisons of one input
    clamps      an input that N clamps after one another take into narrower ranges
    stepping    N counters up to ten, of which an input of N labels chooses the one that steps; each is observed
    conjuncts   N timers, each within three bounds of its own: an observer of N conjuncts over 3 N comparisons
    plant       N valves, each an instance with a level, a timer and seven comparisons
"""
import sys


def program(inputs, local, equations):
    """The text of a node of Booleans, one line for each equation."""
    body = "".join(f"  {line};\n" for line in equations)
    return f"node main({', '.join(inputs)}: bool) returns (ok: bool);\nvar {', '.join(local)}: bool;\nlet\n{body}tel\n"


def names(letter, count, first=0):
    """Numbered names."""
    return [f"{letter}{i}" for i in range(first, first + count)]


def links(n, strict=False):
    """A row of n links, and whether something was seen before it comes out at the end."""
    head = "node link(a: bool) returns (b: bool);\nlet\n  b = false -> pre a;\ntel\n"
    row = [f"b{i} = link({'a' if i == 1 else f'b{i - 1}'})" for i in range(1, n + 1)]
    ok = f"ok = not b{n}" if strict else f"ok = not b{n} or seen"
    return head + program(["a"], ["seen"] + names("b", n, 1), ["seen = a or (false -> pre seen)"] + row + [ok])


def counter(n, wraps=True):
    """A counter of n bits, bit 0 the least, that steps where its input is true."""
    held = [f"p{i} = false -> pre b{i}" for i in range(n)]
    carry = ["c0 = step"] + [f"c{i} = c{i - 1} and p{i - 1}" for i in range(1, n)]
    last = " and ".join(["step", "not p0"] + names("p", n - 1, 1)) if wraps else "false"
    after = [f"b{i} = (p{i} xor c{i}) and not wrap" for i in range(n)]
    ok = f"ok = not ({' and '.join(names('b', n))})"
    local = names("p", n) + names("c", n) + ["wrap"] + names("b", n)
    return program(["step"], local, held + carry + [f"wrap = {last}"] + after + [ok])


def ring(n):
    """A token that goes round n stations where its input is true."""
    held = [f"p{i} = false -> pre t{i}" for i in range(n)]
    first = [f"t0 = true -> if pass then p{n - 1} else p0"]
    rest = [f"t{i} = if pass then p{i - 1} else p{i}" for i in range(1, n)]
    return program(["pass"], names("p", n) + names("t", n), held + first + rest + [f"ok = #({', '.join(names('t', n))})"])


def modes(n, shared=False):
    """n latches that are true only where the mode was on."""
    sets = ["set"] * n if shared else names("s", n)
    held = ["m = false -> pre mode"] + [f"p{i} = false -> pre l{i}" for i in range(n)]
    after = [f"l{i} = mode and ({sets[i]} or p{i})" for i in range(n)]
    ok = f"ok = m or not ({' or '.join(names('p', n))})"
    inputs = ["toggle"] + (["set"] if shared else sets)
    return program(inputs, ["m", "mode"] + names("p", n) + names("l", n), held + ["mode = m xor toggle"] + after + [ok])


def unread(n, shared=False):
    """A counter up to ten, and n comparisons that nothing reads."""
    inputs = "a" if shared else ", ".join(names("a", n))
    flags = [f"  b{i} = {'a' if shared else f'a{i}'} <= {3 * i};\n" for i in range(n)]
    local = f"var c: int; {', '.join(names('b', n))}: bool;\n"
    body = "  c = 0 -> if pre c < 10 then pre c + 1 else 0;\n" + "".join(flags) + "  ok = c <= 10;\n"
    return f"node main({inputs}: int) returns (ok: bool);\n{local}let\n{body}tel\n"


def clamps(n):
    """An input, taken into ranges that grow narrower."""
    steps = []
    for i in range(n):
        before, high, low = "a" if i == 0 else f"y{i - 1}", 200 - i, i
        steps.append(f"  y{i} = if {before} > {high} then {high} else if {before} < {low} then {low} else {before};\n")
    body = "".join(steps) + f"  held = 50 -> pre y{n - 1};\n  ok = {n - 1} <= held and held <= {201 - n};\n"
    return f"node main(a: int) returns (ok: bool);\nvar held, {', '.join(names('y', n))}: int;\nlet\n{body}tel\n"


def stepping(n):
    """n counters up to ten, of which one steps."""
    steps = [f"x{i} = 0 -> if at = P{i} and pre x{i} < 10 then pre x{i} + 1 else pre x{i}" for i in range(n)]
    return integers(n, "", steps + [f"ok = {' and '.join(f'x{i} <= 10' for i in range(n))}"])


def conjuncts(n):
    """n timers within bounds of their own."""
    steps, parts = [], []
    for i in range(n):
        steps.append(f"  t{i} = 0 -> if go{i} and pre t{i} < {20 + i} then pre t{i} + 1 else 0;\n")
        parts.append(f"(0 <= t{i} and t{i} <= {20 + i} and (t{i} = 0 or t{i} <= {25 + i}))")
    body = "".join(steps) + f"  ok = {' and '.join(parts)};\n"
    return f"node main({', '.join(names('go', n))}: bool) returns (ok: bool);\nvar {', '.join(names('t', n))}: int;\nlet\n{body}tel\n"


def plant(n):
    """n valves: an instance each of a node with a level and a timer."""
    valve = """node valve(go, stop: bool; flow: int) returns (ok: bool);
var level, wait: int; full, empty, busy: bool;
let
  assert 0 <= flow and flow <= 4;
  busy = false -> if go and not pre full then true else if stop or pre full then false else pre busy;
  wait = 0 -> if busy and pre wait < 15 then pre wait + 1 else 0;
  level = 10 -> if busy and pre level + flow <= 90 then pre level + flow else if pre level > 4 then pre level - 3 else pre level;
  full = level >= 80;
  empty = level < 5;
  ok = 0 <= level and level <= 90 and wait <= 15 and not (full and empty);
tel
"""
    calls = "".join(f"  ok{i} = valve(go{i}, stop, flow{i});\n" for i in range(n))
    inputs = f"{', '.join(names('go', n))}, stop: bool; {', '.join(names('flow', n))}: int"
    body = calls + f"  ok = {' and '.join(names('ok', n))};\n"
    return f"{valve}node main({inputs}) returns (ok: bool);\nvar {', '.join(names('ok', n))}: bool;\nlet\n{body}tel\n"


def choice(n):
    """A type of n labels."""
    return f"type place = enum {{ {', '.join(names('P', n))} }};\n"


def integers(n, local, equations):
    """The text of a node of n integers and these Booleans over an input of n labels."""
    body = "".join(f"  {line};\n" for line in equations)
    ints = f"{', '.join(names('x', n))}: int;"
    return f"{choice(n)}node main(at: place) returns (ok: bool);\nvar {ints} {local}\nlet\n{body}tel\n"


def counters(n):
    """n counters, of which one steps."""
    steps = [f"x{i} = 0 -> if at = P{i} then pre x{i} + 1 else pre x{i}" for i in range(n)]
    return integers(n, "", steps + ["ok = true"])


def memories(n):
    """n counters, of which one is compared with ten, and steps where it is less."""
    local = " ".join(f"d{i}: bool; y{i}: bool when d{i};" for i in range(n))
    here = [f"d{i} = at = P{i}" for i in range(n)]
    less = [f"y{i} = ((0 -> pre x{i}) when d{i}) < (10 when d{i})" for i in range(n)]
    steps = [f"x{i} = 0 -> if d{i} and current y{i} then pre x{i} + 1 else pre x{i}" for i in range(n)]
    return integers(n, local, here + less + steps + ["ok = true"])


def chasing(n):
    """n counters, of which one is compared with a number and with the next counter, and steps where it is behind both."""
    local = " ".join(f"d{i}: bool; y{i}: bool when d{i};" for i in range(n))
    here = [f"d{i} = at = P{i}" for i in range(n)]
    held = [f"((0 -> pre x{i}) when d{i})" for i in range(n)]
    ahead = [f"((0 -> pre x{(i + 1) % n}) when d{i})" for i in range(n)]
    less = [f"y{i} = {held[i]} < ({10 + i} when d{i}) and {held[i]} - {ahead[i]} < (5 when d{i})" for i in range(n)]
    steps = [f"x{i} = 0 -> if d{i} and current y{i} then pre x{i} + 1 else pre x{i}" for i in range(n)]
    return integers(n, local, here + less + steps + ["ok = x0 - x1 <= 5"])


FAMILIES = {
    "links": links,
    "links-bad": lambda n: links(n, strict=True),
    "counter": counter,
    "counter-bad": lambda n: counter(n, wraps=False),
    "ring": ring,
    "modes": modes,
    "shared": lambda n: modes(n, shared=True),
    "counters": counters,
    "memories": memories,
    "chasing": chasing,
    "unread": unread,
    "unread-one": lambda n: unread(n, shared=True),
    "clamps": clamps,
    "stepping": stepping,
    "conjuncts": conjuncts,
    "plant": plant,
}


def main():
    if len(sys.argv) != 3 or sys.argv[1] not in FAMILIES or not sys.argv[2].isdigit() or int(sys.argv[2]) < 2:
        sys.exit(__doc__)
    sys.stdout.write(FAMILIES[sys.argv[1]](int(sys.argv[2])))


if __name__ == "__main__":
    main()
