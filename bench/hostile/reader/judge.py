#!/usr/bin/env python3
"""Judges a trace or an invariant file: `python3 -m reader.judge replay|check FILE NODE DOCUMENT` prints what the program is to print."""
import sys

from .documents import Fault, Invariant, read_trace
from .flat import MAIN, Flat, Instant
from .source import Parser
from .values import Concrete, Symbolic, dotted

RANGE = (-(1 << 63), (1 << 63) - 1)


def flat_of(source, main):
    """The flat form of an accepted source."""
    return Flat(Parser(source).program(), main)


def replayed(flat, text):
    """What `replay` prints of a trace."""
    try:
        starts, instants = read_trace(text, flat)
    except Fault as found:
        return str(found)
    ticked, kept = set(), dict(starts)
    for number, inputs in enumerate(instants):
        instant = Instant(flat, Concrete(ticked, kept, inputs))
        told = ended(flat, instant, number)
        if told:
            return told
        ticked, kept = stepped(flat, instant, ticked, kept)
    return "reaver,neverfalse\n"


def ended(flat, instant, number):
    """What ends a replay at an instant; None where nothing does."""
    beyond = [place for place, value in integers(flat, instant) if not RANGE[0] <= value <= RANGE[1]]
    if beyond:
        return "reaver,outgrown,%d,%s\n" % (number, dotted(min(beyond)))
    for place, instance, e, clock in flat.assertions:
        if instant.present(clock) and not instant.value(instance, e, clock):
            return "reaver,assertion,%d,%s\n" % (number, dotted(place))
    if not instant.flow(MAIN, flat.node(MAIN).outputs[0]):
        return "reaver,falsified,%d\n" % number
    return None


def integers(flat, instant):
    """The values of integer flows and operands that are present, with their places."""
    for instance in flat.node_of:
        for name, (kind, _, _) in flat.node(instance).flows.items():
            if kind == ("int",) and instant.present(flat.flow_clock(instance, name)):
                yield flat.place(instance, name), instant.flow(instance, name)
    for place, memory in flat.memories.items():
        there, value = instant.operand(place)
        if memory[3] == ("int",) and there:
            yield place, value()


def stepped(flat, instant, ticked, kept):
    """The ticks and memories after an instant."""
    ticks = ticked | {None} | {clock for _, clock in flat.ticks if instant.present(clock)}
    memories = {}
    for place in flat.memories:
        there, value = instant.operand(place)
        memories[place] = value() if there else kept[place]
    return ticks, memories


class Program:
    """A source read at all valuations at once: its rows, updates, next control states, assertions and observer."""

    def __init__(self, flat):
        self.flat = flat
        self.symbolic = symbolic = Symbolic(flat)
        self.diagrams = d = symbolic.diagrams
        instant = Instant(flat, symbolic)
        self.observer = instant.flow(MAIN, flat.node(MAIN).outputs[0])
        self.allowed = 1
        for _, instance, e, clock in flat.assertions:
            there = instant.present(clock)
            self.allowed = d.both(self.allowed, d.ite(there, instant.value(instance, e, clock), 1))
        self.initial = d.negated(symbolic.variable(0))
        for place, clock in flat.ticks:
            self.initial = d.both(self.initial, d.negated(symbolic.tick(clock)))
        for place, memory in flat.memories.items():
            self.initial = d.both(self.initial, symbolic.labelled(("memory", place), memory[3]))
            self.allowed = d.both(self.allowed, symbolic.labelled(("memory", place), memory[3]))
        for number, (_, kind) in enumerate(flat.inputs):
            self.allowed = d.both(self.allowed, symbolic.labelled(("input", number), kind))
        self.advance(instant)
        self.compare(instant)

    def advance(self, instant):
        """The next value of each state bit, and the update of each integer memory."""
        flat, symbolic, d = self.flat, self.symbolic, self.diagrams
        self.next, self.updates = {0: 1}, []
        for _, clock in flat.ticks:
            self.next[symbolic.number["tick", clock]] = d.either(symbolic.tick(clock), instant.present(clock))
        for place, memory in flat.memories.items():
            there, value = instant.operand(place)
            after = symbolic.choice(there, value, lambda place=place: symbolic.memory(place))
            if memory[3] == ("int",):
                self.updates.append(after)
            elif memory[3] == ("bool",):
                self.next[symbolic.number["memory", place, 0]] = after
            else:
                for bit in range((len(memory[3][2]) - 1).bit_length()):
                    found = 0
                    for code, under in after:
                        found = d.either(found, under) if code >> bit & 1 else found
                    self.next[symbolic.number["memory", place, bit]] = found

    def compare(self, instant):
        """Where each test is present, and its rows."""
        self.tests = []
        for place, side in self.symbolic.tests:
            instance, e, clock = self.flat.tests[place]
            instant.value(instance, e, clock)
            there = instant.present(clock)
            self.tests.append((there, self.symbolic.test_rows[place, side]))

    def settled_row(self, number, scope):
        """The row of a test in a scope; None where it is not settled there."""
        there, rows = self.tests[number]
        return None if self.diagrams.both(scope, self.diagrams.negated(there)) else self.single(rows, scope)

    def single(self, parts, scope):
        """The one value that parts have throughout a scope; None where there is none."""
        found = [value for value, under in parts if self.diagrams.both(scope, under)]
        return found[0] if len(found) == 1 else None


def by_rows(premises, wanted, multipliers):
    """Whether multipliers prove a row from premises, or refute them where none is wanted."""
    divisor, weights = multipliers
    width = max([len(row[0]) for row in premises.values()] + [len(wanted[0]) if wanted else 0, 0])
    sums = [sum(weight * wide(premises[p], width)[i] for p, weight in weights) for i in range(width)]
    bound = sum(weight * premises[p][1] for p, weight in weights)
    if wanted is None:
        return not any(sums) and bound < 0
    left = wide(wanted, width)
    return sums == [divisor * c for c in left] and bound < divisor * (wanted[1] + 1)


def wide(row, width):
    return list(row[0]) + [0] * (width - len(row[0]))


class Checked:
    """The first reason why an invariant file is not accepted."""

    def __init__(self, program, locations):
        self.program, self.locations, self.diagrams = program, locations, program.diagrams
        variable = program.symbolic.variable
        self.sets = [self.diagrams.read(*one["control"], variable) for one in locations]

    def word(self, d):
        return self.diagrams.least(d, len(self.program.symbolic.names))

    def answer(self):
        d, left = self.diagrams, self.program.initial
        for one, control in zip(self.locations, self.sets):
            if not one["entry"]:
                left = d.both(left, d.negated(control))
        if left:
            return "reaver,rejected,1,noinitial,%s\n" % self.word(left)
        for number, one in enumerate(self.locations):
            reason = self.location(number, one)
            if reason:
                return "reaver,rejected," + reason + "\n"
        return "reaver,accepted\n"

    def location(self, number, one):
        """The first reason in a location."""
        d, program = self.diagrams, self.program
        for word, rows, first in (("by_entry", "entry", 0), ("by_first", "first", len(one["state"]))):
            for place, multipliers in enumerate(one[word]):
                if not by_rows(dict(enumerate(one[rows])), one["state"][place], multipliers):
                    return "7,inclusion,%d,%d" % (number, first + place)
        inside = d.both(program.allowed, self.sets[number])
        left = inside
        for entry in one["entries"]:
            entry["diagram"] = d.read(*entry["when"], program.symbolic.variable)
            left = d.both(left, d.negated(entry["diagram"]))
        if left:
            return "2,uncovered,%d,%s" % (number, self.word(left))
        for place, entry in enumerate(one["entries"]):
            reason = self.entry(number, one, entry, d.both(inside, entry["diagram"]))
            if reason:
                name, *fields = reason
                return ",".join([name, str(number), str(place), *map(str, fields)])
        return None

    def implications(self, one, entry):
        """The implications of an entry: their lists of premises, what is proved (a row, whether after the updates), by what."""
        state = one["state"]
        if entry["kind"] == "dead":
            return [(state, None, False, entry["by"][0])]
        if entry["kind"] == "go":
            return [(state, row, True, by) for row, by in zip(self.locations[entry["target"]]["entry"], entry["by"])]
        around = one["around"] + state
        lists = [(one["entry"], "first", True), (one["first"], "around", False), (around, "around", True), (around, "state", True)]
        return [(rows, row, after, by) for (rows, word, after), bys in zip(lists, entry["by"]) for row, by in zip(one[word], bys)]

    def entry(self, number, one, entry, scope):
        """The first reason in an entry."""
        d, program = self.diagrams, self.program
        implications = [self.read(*one_of, scope) for one_of in self.implications(one, entry)]
        if any(one_of is None for one_of in implications):
            return ("3,unsettled",)
        if entry["kind"] != "dead":
            wrong = d.both(scope, d.negated(program.observer))
            if wrong:
                return ("4,observer", self.word(wrong))
            control = self.locations[entry["target"] if entry["kind"] == "go" else number]["control"]
            after = d.read(*control, program.next.__getitem__)
            wrong = d.both(scope, d.negated(after))
            if wrong:
                return ("5,target", self.word(wrong))
        for place, (premises, wanted, multipliers) in enumerate(implications):
            if not by_rows(premises, wanted, multipliers):
                return ("6,multipliers", place)
        return None

    def read(self, rows, row, after, multipliers, scope):
        """An implication whose tests and updates are read in a scope; None where one of them is not settled."""
        premises = {}
        for premise, _ in multipliers[1]:
            premises[premise] = rows[premise] if premise < len(rows) else self.program.settled_row(premise - len(rows), scope)
        if any(found is None for found in premises.values()):
            return None
        return self.wanted(premises, row, multipliers, scope) if after else (premises, row, multipliers)

    def wanted(self, premises, row, multipliers, scope):
        """The same with the wanted row after the updates."""
        width = self.program.symbolic.width
        left, bound = [0] * width, row[1]
        for coefficient, update in zip(row[0], self.program.updates):
            if coefficient:
                form = self.program.single(update, scope)
                if form is None:
                    return None
                left = [a + coefficient * c for a, c in zip(left, form[0])]
                bound -= coefficient * form[1]
        return premises, (tuple(left), bound), multipliers


def checked(program, text):
    """What `check` prints of an invariant file."""
    try:
        locations = Invariant(text, program.symbolic).read()
    except Fault as found:
        return str(found)
    return Checked(program, locations).answer()


def main():
    sys.setrecursionlimit(1_000_000)
    command, source, node, document = sys.argv[1:]
    with open(source, "rb") as text, open(document, "rb") as records:
        flat, document = flat_of(text.read(), node), records.read()
    sys.stdout.write(replayed(flat, document) if command == "replay" else checked(Program(flat), document))


if __name__ == "__main__":
    main()
