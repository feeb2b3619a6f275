"""Two algebras of values: of one instant of a run, and of all valuations at once, over decision diagrams."""
from math import gcd

from .source import BOOLEANS, ORDERS


class Concrete:
    """Values of one instant: truths, label numbers, whole numbers."""

    def __init__(self, ticked, kept, inputs):
        self.ticked, self.kept, self.inputs = ticked, kept, inputs

    def truth(self, value):
        return value

    def both(self, a, b):
        return a and b()

    def constant(self, value):
        return value[1]

    def input(self, number):
        return self.inputs[number]

    def memory(self, place):
        return self.kept[place]

    def tick(self, clock):
        return clock in self.ticked

    def choice(self, condition, yes, no):
        return yes() if condition else no()

    def compared(self, place, operator, kind, a, b):
        return ORDERS[operator](a, b)

    def applied(self, form, operator, kind, parts):
        if form == "not":
            return not parts[0]
        if form == "most":
            return sum(parts) <= 1
        if form == "-":
            return -parts[0]
        if kind == ("int",):
            return {"+": int.__add__, "-": int.__sub__, "*": int.__mul__}[operator](*parts)
        return BOOLEANS[operator](*parts)


class Diagrams:
    """Shared decision diagrams: 0 is false, 1 is true, others are numbers of (variable, low, high)."""

    LAST = 1 << 30

    def __init__(self):
        self.nodes, self.numbers, self.found = [(self.LAST, 0, 0), (self.LAST, 1, 1)], {}, {}

    def made(self, variable, low, high):
        if low == high:
            return low
        key = (variable, low, high)
        if key not in self.numbers:
            self.numbers[key] = len(self.nodes)
            self.nodes.append(key)
        return self.numbers[key]

    def ite(self, c, a, b):
        if c < 2:
            return a if c else b
        if a == b or (a == 1 and b == 0):
            return a if a == b else c
        key = (c, a, b)
        if key not in self.found:
            variable = min(self.nodes[c][0], self.nodes[a][0], self.nodes[b][0])
            sides = [[(self.nodes[d][1 + side] if self.nodes[d][0] == variable else d) for d in key] for side in (0, 1)]
            self.found[key] = self.made(variable, self.ite(*sides[0]), self.ite(*sides[1]))
        return self.found[key]

    def both(self, a, b):
        return self.ite(a, b, 0)

    def either(self, a, b):
        return self.ite(a, 1, b)

    def negated(self, a):
        return self.ite(a, 0, 1)

    def read(self, root, triples, variable):
        """The diagram of a document, each variable standing for a diagram."""
        numbers = [0, 1]
        for v, low, high in triples:
            numbers.append(self.ite(variable(v), numbers[high], numbers[low]))
        return numbers[root]

    def least(self, a, count):
        """The least valuation at which a diagram is true, as a word."""
        word = ["0"] * count
        while a > 1:
            variable, low, high = self.nodes[a]
            if low == 0:
                word[variable] = "1"
            a = low or high
        return "".join(word)


def tightened(row):
    """A row divided by the greatest common divisor of its coefficients."""
    coefficients, bound = row
    divisor = gcd(*coefficients) if coefficients else 0
    return row if divisor == 0 else (tuple(c // divisor for c in coefficients), bound // divisor)


class Symbolic:
    """Values at all valuations: a truth is a diagram, a label or a form is a list of values with the diagrams under which they hold."""

    def __init__(self, flat):
        self.flat, self.diagrams = flat, Diagrams()
        self.columns = [place for place, memory in flat.memories.items() if memory[3] == ("int",)]
        self.integer_inputs = [number for number, (_, kind) in enumerate(flat.inputs) if kind == ("int",)]
        self.width = len(self.columns) + len(self.integer_inputs)
        self.number_variables()
        self.test_rows = {}

    def number_variables(self):
        """The numbers of the diagram variables, and their names."""
        flat = self.flat
        self.state_names, self.number = [], {}
        for name, key in [("tick", ("tick", None))] + [("tick:" + dotted(place), ("tick", clock)) for place, clock in flat.ticks]:
            self.number[key] = 2 * len(self.state_names)
            self.state_names.append(name)
        for place, memory in flat.memories.items():
            for bit in range(bits_of(memory[3])):
                self.number["memory", place, bit] = 2 * len(self.state_names)
                self.state_names.append("memory:%s:%d" % (dotted(place), bit))
        self.names = [name for state in self.state_names for name in (state, "next")]
        for number, (name, kind) in enumerate(flat.inputs):
            for bit in range(bits_of(kind)):
                self.number["input", number, bit] = len(self.names)
                self.names.append("input:%s:%d" % (name, bit))
        self.first_test, self.tests = len(self.names), []
        for place, (_, e, _) in flat.tests.items():
            for side in sides(e.what):
                self.number["test", place, side] = len(self.names)
                self.tests.append((place, side))
                self.names.append("test:%s:%s" % (dotted(place), side))

    def variable(self, number):
        return self.diagrams.made(number, 0, 1)

    def truth(self, value):
        return 1 if value else 0

    def both(self, a, b):
        return self.diagrams.both(a, b()) if a else 0

    def constant(self, value):
        kind, number = value
        if kind == ("bool",):
            return 1 if number else 0
        if kind == ("int",):
            return [(((0,) * self.width, number), 1)]
        return [(number, 1)]

    def read(self, key, kind, column):
        """What a memory or an input stands for."""
        if kind == ("bool",):
            return self.variable(self.number[key + (0,)])
        if kind == ("int",):
            return [((tuple(int(i == column) for i in range(self.width)), 0), 1)]
        return [(code, self.code(key, kind, code)) for code in range(len(kind[2]))]

    def code(self, key, kind, code):
        """Where the bits of a label are those of a code."""
        found = 1
        for bit in range(bits_of(kind)):
            variable = self.variable(self.number[key + (bit,)])
            found = self.diagrams.both(found, variable if code >> bit & 1 else self.diagrams.negated(variable))
        return found

    def labelled(self, key, kind):
        """Where the bits of a label name one."""
        found = 1
        if kind[0] == "labels":
            found = 0
            for code in range(len(kind[2])):
                found = self.diagrams.either(found, self.code(key, kind, code))
        return found

    def input(self, number):
        kind = self.flat.inputs[number][1]
        column = len(self.columns) + self.integer_inputs.index(number) if kind == ("int",) else None
        return self.read(("input", number), kind, column)

    def memory(self, place):
        kind = self.flat.memories[place][3]
        return self.read(("memory", place), kind, self.columns.index(place) if kind == ("int",) else None)

    def tick(self, clock):
        return self.variable(self.number["tick", clock])

    def choice(self, condition, yes, no):
        if condition < 2:
            return yes() if condition else no()
        a, b = yes(), no()
        if isinstance(a, int):
            return self.diagrams.ite(condition, a, b)
        other = self.diagrams.negated(condition)
        return self.merged([(value, self.diagrams.both(condition, d)) for value, d in a] + [(value, self.diagrams.both(other, d)) for value, d in b])

    def merged(self, parts):
        """Parts with equal values as one, and no empty one."""
        found = {}
        for value, d in parts:
            if d:
                found[value] = self.diagrams.either(found.get(value, 0), d)
        return list(found.items())

    def joined(self, a, b, operation):
        """An operation on values wherever they hold."""
        return self.merged([(operation(x, y), self.diagrams.both(d, e)) for x, d in a for y, e in b])

    def compared(self, place, operator, kind, a, b):
        d = self.diagrams
        if kind == ("int",):
            self.keep_rows(place, operator, a, b)
            truth = [self.variable(self.number["test", place, side]) for side in sides(operator)]
            value = d.both(*truth) if len(truth) == 2 else truth[0]
            return d.negated(value) if operator in (">", "<", "<>") else value
        if kind == ("bool",):
            equal = d.ite(a, b, d.negated(b))
        else:
            equal = dict(self.joined(a, b, lambda x, y: x == y)).get(True, 0)
        return equal if operator == "=" else d.negated(equal)

    def keep_rows(self, place, operator, a, b):
        """Where each test of a comparison has which row."""
        d = self.diagrams
        for side in sides(operator):
            left, right = (a, b) if side == "le" else (b, a)
            form = self.joined(left, right, lambda x, y: combined(x, y, -1))
            variable = self.variable(self.number["test", place, side])
            rows = [(tightened((c, -k)), d.both(under, variable)) for (c, k), under in form]
            rows += [(tightened((tuple(-i for i in c), k - 1)), d.both(under, d.negated(variable))) for (c, k), under in form]
            self.test_rows[place, side] = self.merged(rows)

    def applied(self, form, operator, kind, parts):
        d = self.diagrams
        if form == "not":
            return d.negated(parts[0])
        if form == "most":
            none, one = 1, 0
            for part in parts:
                none, one = d.ite(part, 0, none), d.ite(part, none, one)
            return d.either(none, one)
        if form == "-":
            return [((tuple(-i for i in c), -k), under) for (c, k), under in parts[0]]
        if kind == ("int",):
            return self.joined(*parts, product if operator == "*" else lambda x, y: combined(x, y, 1 if operator == "+" else -1))
        a, b = parts
        return {"and": lambda: d.both(a, b), "or": lambda: d.either(a, b), "xor": lambda: d.ite(a, d.negated(b), b), "=>": lambda: d.ite(a, b, 1)}[operator]()


def combined(a, b, sign):
    """The sum of two forms, the second with a sign."""
    return tuple(x + sign * y for x, y in zip(a[0], b[0])), a[1] + sign * b[1]


def product(a, b):
    """The product of two forms, one of which has no coefficients."""
    scale, form = (b[1], a) if not any(b[0]) else (a[1], b)
    return tuple(scale * x for x in form[0]), scale * form[1]


def sides(operator):
    """The tests of a comparison."""
    return {"<=": ["le"], ">": ["le"], ">=": ["ge"], "<": ["ge"]}.get(operator, ["le", "ge"])


def bits_of(kind):
    """How many bits a control value has; none for an integer."""
    if kind == ("bool",):
        return 1
    return 0 if kind == ("int",) else (len(kind[2]) - 1).bit_length()


def dotted(place):
    return ".".join(map(str, place))
