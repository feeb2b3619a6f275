"""Reads an accepted source into nodes whose expressions have sites. Texts that break a rule are not looked for: they are refused before."""
import re

TOKEN = re.compile(rb"(?:\s|--[^\n]*|\(\*.*?\*\)|/\*.*?\*/)+|([A-Za-z_]\w*|\d+|->|=>|<>|<=|>=|[<>=+\-*/(),;:{}#.])", re.S | re.A)
BINARY = [{"->"}, {"=>"}, {"or", "xor"}, {"and"}, {"=", "<>", "<", "<=", ">", ">="}, {"+", "-"}, {"*", "/", "div", "mod"}]
COMPARISONS = BINARY[4]
RIGHT = 2


class Expr:
    """An expression: its form, the offset that orders its site, the site, its parts, and a name, operator or value."""

    __slots__ = ("form", "at", "site", "parts", "what")

    def __init__(self, form, at, parts=(), what=None):
        self.form, self.at, self.site, self.parts, self.what = form, at, None, list(parts), what


class Node:
    """A node: flows by their names (kind, clock, site), the names of inputs and outputs, equations and assertions."""

    def __init__(self):
        self.flows, self.inputs, self.outputs = {}, [], []
        self.equations, self.assertions, self.right_of = [], [], {}


class Parser:
    def __init__(self, text):
        self.tokens, at = [], 0
        while at < len(text):
            match = TOKEN.match(text, at)
            if match.group(1):
                self.tokens.append((match.group(1).decode(), at))
            at = match.end()
        self.tokens.append(("", len(text)))
        self.next = 0
        self.kinds, self.labels, self.constants, self.nodes = {}, {}, {}, {}

    @property
    def word(self):
        return self.tokens[self.next][0]

    def take(self, *wanted):
        """The next token; one of the wanted ones where some are told."""
        word, at = self.tokens[self.next]
        if wanted and word not in wanted:
            raise ValueError("%r at %d" % (word, at))
        self.next += 1
        return word, at

    def has(self, word):
        """Takes the token where it is the next one."""
        if self.word != word:
            return False
        self.next += 1
        return True

    def kind(self):
        word = self.take()[0]
        return ("bool",) if word == "bool" else ("int",) if word == "int" else self.kinds[word]

    def names(self):
        found = [self.take()[0]]
        while self.has(","):
            found.append(self.take()[0])
        return found

    def program(self):
        while self.word:
            word = self.take("type", "const", "node")[0]
            if word == "node":
                self.node()
                continue
            self.definition(word)
            while self.word not in ("type", "const", "node", ""):
                self.definition(word)
        return self

    def definition(self, word):
        """A type, or a constant with its value."""
        name = self.take()[0]
        if word == "const":
            if self.has(":"):
                self.kind()
            self.take("=")
            self.constants[name] = self.value(self.expression())
        else:
            self.take("=")
            self.kinds[name] = self.enumeration(name) if self.has("enum") else self.kind()
        self.take(";")

    def enumeration(self, name):
        self.take("{")
        labels = self.names()
        self.take("}")
        kind = ("labels", name, tuple(labels))
        self.labels.update((label, (kind, number)) for number, label in enumerate(labels))
        return kind

    def value(self, e):
        """The kind and value of a constant expression."""
        if e.form == "literal":
            return e.what
        if e.form == "name":
            return self.constants[e.what] if e.what in self.constants else self.labels[e.what]
        values = [self.value(part) for part in e.parts]
        return computed(e.form, e.what, values)

    def node(self):
        node = Node()
        self.nodes[self.take()[0]] = node
        for flows in (node.inputs, node.outputs):
            self.take("(")
            while not self.has(")"):
                flows += self.group(node)
                self.has(";")
            self.has("returns")
        self.has(";")
        while self.has("var"):
            while self.word not in ("var", "let"):
                self.local(node)
        self.take("let")
        while not self.has("tel"):
            self.equation(node)
        if self.word in (";", "."):
            self.take()
        numbered(node)

    def group(self, node, clock=None):
        names = self.names()
        self.take(":")
        kind = self.kind()
        for name in names:
            node.flows[name] = [kind, clock, len(node.flows)]
        return names

    def local(self, node):
        bracket = self.has("(")
        names = self.group(node)
        if bracket:
            self.take(")")
        if self.has("when"):
            clock = self.take()[0]
            for name in names:
                node.flows[name][1] = clock
        self.take(";")

    def equation(self, node):
        word, at = self.tokens[self.next]
        if word == "assert":
            self.take()
            node.assertions.append(Expr("assert", at, [self.expression()]))
        else:
            bracket = self.has("(")
            lefts = self.names()
            if bracket:
                self.take(")")
            self.take("=")
            right = self.expression()
            node.equations.append((lefts, right))
            for number, left in enumerate(lefts):
                node.right_of[left] = (right, number if len(lefts) > 1 else None)
        self.take(";")

    def expression(self, level=0):
        if level == len(BINARY):
            return self.clocked()
        left = self.expression(level + 1)
        while self.word in BINARY[level]:
            operator, at = self.take()
            right = self.expression(level if level < RIGHT else level + 1)
            left = Expr("compare" if operator in COMPARISONS else "binary", at, [left, right], operator)
            if level < RIGHT or level == 4:
                break
        return left

    def clocked(self):
        e = self.prefix()
        while self.word == "when":
            at = self.take()[1]
            e = Expr("when", at, [e], self.take()[0])
        return e

    def prefix(self):
        word, at = self.tokens[self.next]
        if word in ("-", "not", "pre", "current"):
            self.take()
            return Expr(word, at, [self.prefix()])
        if word == "if":
            self.take()
            condition = self.expression()
            self.take("then")
            yes = self.expression()
            self.take("else")
            return Expr("if", at, [condition, yes, self.expression()])
        return self.atom()

    def atom(self):
        word, at = self.take()
        if word == "(":
            e = self.expression()
            self.take(")")
            return e
        if word in ("true", "false"):
            return Expr("literal", at, [], (("bool",), word == "true"))
        if word.isdigit():
            return Expr("literal", at, [], (("int",), int(word)))
        if word != "#" and self.word != "(":
            return Expr("name", at, [], word)
        self.take("(")
        parts = [self.expression()]
        while self.has(","):
            parts.append(self.expression())
        self.take(")")
        return Expr("most", at, parts) if word == "#" else Expr("call", at, parts, word)


def within(e):
    """An expression and all that stands in it."""
    found, waiting = [], [e]
    while waiting:
        one = waiting.pop()
        found.append(one)
        waiting += one.parts
    return found


def numbered(node):
    """Gives the sites: flows first, then what is remembered, called, compared or asserted, by offsets."""
    tops = [right for _, right in node.equations] + node.assertions
    sited = [e for top in tops for e in within(top) if e.form in ("pre", "current", "call", "compare", "assert")]
    for site, e in enumerate(sorted(sited, key=lambda e: e.at), len(node.flows)):
        e.site = site


INTEGERS = {"+": lambda a, b: a + b, "-": lambda a, b: a - b, "*": lambda a, b: a * b}
ORDERS = {
    "<": lambda a, b: a < b,
    "<=": lambda a, b: a <= b,
    ">": lambda a, b: a > b,
    ">=": lambda a, b: a >= b,
    "=": lambda a, b: a == b,
    "<>": lambda a, b: a != b,
}
BOOLEANS = {"and": lambda a, b: a and b, "or": lambda a, b: a or b, "xor": lambda a, b: a != b, "=>": lambda a, b: b or not a}


def computed(form, operator, values):
    """The kind and value of an operator at kinds and values."""
    kind, numbers = values[-1][0], [number for _, number in values]
    if form == "if":
        return (kind, numbers[1] if numbers[0] else numbers[2])
    if form == "-":
        return (kind, -numbers[0])
    if form == "not":
        return (kind, not numbers[0])
    if form == "most":
        return (("bool",), sum(numbers) <= 1)
    if operator in INTEGERS:
        return (kind, INTEGERS[operator](*numbers))
    return (("bool",), (ORDERS.get(operator) or BOOLEANS[operator])(*numbers))
