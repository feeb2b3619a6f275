"""A program of reaver's language as constrained Horn clauses, for bench/controllers.sh:

    python3 horn.py FILE NODE > CLAUSES.smt2

It reads a source that `reaver` accepts (docs/language.md) and prints SMT-LIB 2 for z3's Spacer: `sat` means that NODE is safe, `unsat` that it is
violated. All instances are flattened: a variable for each flow of each, and for what stands under a `pre` or `current` that is no flow. The state
is a tick for each clock on which a `->` stands and a value for each memory; a predicate holds of the states that are reached while the assertions
hold. A start value is any of its type. Labels are numbers from 0. Rules that only refuse sources are not looked at, but for those of the text."""
import re
import sys

TOKEN = re.compile(r'(?P<space>\s+|--[^\n]*|\(\*.*?\*\)|/\*.*?\*/)|(?P<word>[A-Za-z_][A-Za-z_0-9]*|[0-9]+|->|=>|<>|<=|>=|[<>=+\-*/(),;:{}#.])', re.S)
RESERVED = set('node returns var let tel const type enum bool int if then else true false not and or xor pre when current assert div mod'.split())
COMPARISONS = ['=', '<>', '<', '<=', '>', '>=']
LEVELS = [(['->'], 'right'), (['=>'], 'right'), (['or', 'xor'], 'left'), (['and'], 'left'), (COMPARISONS, 'none'), (['+', '-'], 'left'), (['*'], 'left')]
# Operators that apply instant by instant: the type of the result (None where it is that of the last operand), the term, and the value of constants.
INSTANTLY = {
    'not': ('bool', '(not {})', lambda a: not a),
    'minus': ('int', '(- {})', lambda a: -a),
    'or': ('bool', '(or {} {})', lambda a, b: a or b),
    'xor': ('bool', '(xor {} {})', lambda a, b: a != b),
    'and': ('bool', '(and {} {})', lambda a, b: a and b),
    '=>': ('bool', '(=> {} {})', lambda a, b: not a or b),
    '=': ('bool', '(= {} {})', lambda a, b: a == b),
    '<>': ('bool', '(not (= {} {}))', lambda a, b: a != b),
    '<': ('bool', '(< {} {})', lambda a, b: a < b),
    '<=': ('bool', '(<= {} {})', lambda a, b: a <= b),
    '>': ('bool', '(> {} {})', lambda a, b: a > b),
    '>=': ('bool', '(>= {} {})', lambda a, b: a >= b),
    '+': ('int', '(+ {} {})', lambda a, b: a + b),
    '-': ('int', '(- {} {})', lambda a, b: a - b),
    '*': ('int', '(* {} {})', lambda a, b: a * b),
    'if': (None, '(ite {} {} {})', lambda a, b, c: b if a else c),
    '#': ('bool', None, lambda *all_of: sum(all_of) <= 1),
}
FREE = object()  # in place of the clock of a constant expression


class Expression:
    """A tree of the text: an operator, its operands, and the name or number of a leaf, a call or a `when`."""

    def __init__(self, operator, operands=(), word=None):
        self.operator, self.operands, self.word = operator, list(operands), word


class Node:
    """A node: groups of (name, type) or (name, type, clock), equations as (left sides, expression), and the expressions of assertions."""

    def __init__(self, inputs, outputs):
        self.inputs, self.outputs, self.locals, self.equations, self.assertions = inputs, outputs, [], [], []


class Reader:
    """Reads a text by recursive descent; what it read stands in `types`, `labels`, `constants` and `nodes`."""

    def __init__(self, text):
        self.tokens, self.at = [], 0
        self.types, self.sizes, self.labels, self.constants, self.nodes = {'bool': 'bool', 'int': 'int'}, {}, {}, {}, {}
        place = 0
        while place < len(text):
            found = TOKEN.match(text, place)
            if not found:
                sys.exit('bad token at byte %d' % place)
            if found.group('word'):
                self.tokens.append((found.group('word'), place))
            place = found.end()
        self.tokens.append(('', place))

    def ahead(self):
        return self.tokens[self.at][0]

    def fail(self):
        sys.exit('the text is no program at byte %d' % self.tokens[self.at][1])

    def take(self, awaited=None):
        word = self.ahead()
        if word == '' or (awaited is not None and word != awaited):
            self.fail()
        self.at += 1
        return word

    def took(self, word):
        if self.ahead() == word:
            self.at += 1
            return True
        return False

    def is_name(self):
        return bool(re.match('[A-Za-z_]', self.ahead())) and self.ahead() not in RESERVED

    def name(self):
        if not self.is_name():
            self.fail()
        return self.take()

    def names(self):
        found = [self.name()]
        while self.took(','):
            found.append(self.name())
        return found

    def program(self):
        while self.ahead():
            word = self.take()
            if word == 'type':
                self.type_declaration()
                while self.is_name():
                    self.type_declaration()
            elif word == 'const':
                self.constant()
                while self.is_name():
                    self.constant()
            elif word == 'node':
                self.node()
            else:
                self.at -= 1
                self.fail()
        return self

    def type_declaration(self):
        name = self.name()
        self.take('=')
        if self.took('enum'):
            self.take('{')
            labels = self.names()
            self.take('}')
            self.types[name], self.sizes[name] = name, len(labels)
            self.labels.update((label, (number, name)) for number, label in enumerate(labels))
        else:
            self.types[name] = self.types[self.kind()]
        self.take(';')

    def kind(self):
        return self.take() if self.ahead() in ('bool', 'int') else self.name()

    def constant(self):
        name = self.name()
        if self.took(':'):
            self.kind()
        self.take('=')
        self.constants[name] = self.expression()
        self.take(';')

    def group(self):
        names = self.names()
        self.take(':')
        kind = self.kind()
        return [(name, kind) for name in names]

    def declarations(self):
        self.take('(')
        found = self.group()
        while self.took(';') and self.ahead() != ')':
            found += self.group()
        self.take(')')
        return found

    def local(self):
        bracket = self.took('(')
        group = self.group()
        if bracket:
            self.take(')')
            self.take('when')
            clock = self.name()
        else:
            clock = self.name() if self.took('when') else None
        self.take(';')
        return [(name, kind, clock) for name, kind in group]

    def node(self):
        name = self.name()
        inputs = self.declarations()
        self.take('returns')
        node = self.nodes[name] = Node(inputs, self.declarations())
        self.took(';')
        while self.took('var'):
            node.locals += self.local()
            while self.ahead() == '(' or self.is_name():
                node.locals += self.local()
        self.take('let')
        while not self.took('tel'):
            if self.took('assert'):
                node.assertions.append(self.expression())
            else:
                node.equations.append((self.left_sides(), self.expression()))
            self.take(';')
        if not self.took(';'):
            self.took('.')

    def left_sides(self):
        bracket = self.took('(')
        names = self.names()
        if bracket:
            self.take(')')
        self.take('=')
        return names

    def expression(self, level=0):
        if level == len(LEVELS):
            return self.sampled()
        operators, side = LEVELS[level]
        left = self.expression(level + 1)
        while self.ahead() in operators:
            operator = self.take()
            left = Expression(operator, [left, self.expression(level if side == 'right' else level + 1)])
            if side == 'none':
                break
        return left

    def sampled(self):
        found = self.prefixed()
        while self.took('when'):
            found = Expression('when', [found], self.name())
        return found

    def prefixed(self):
        word = self.ahead()
        if word in ('not', '-', 'pre', 'current'):
            self.take()
            return Expression('minus' if word == '-' else word, [self.prefixed()])
        if self.took('if'):
            parts = [self.expression()]
            self.take('then')
            parts.append(self.expression())
            self.take('else')
            return Expression('if', parts + [self.expression()])
        return self.atom()

    def atom(self):
        if self.took('('):
            found = self.expression()
            self.take(')')
            return found
        if self.took('#'):
            return Expression('#', self.arguments())
        if self.ahead() in ('true', 'false'):
            return Expression('bool', word=self.take() == 'true')
        if self.ahead().isdigit():
            return Expression('int', word=int(self.take()))
        name = self.name()
        if self.ahead() == '(':
            return Expression('call', self.arguments(), name)
        return Expression('name', word=name)

    def arguments(self):
        self.take('(')
        found = [self.expression()]
        while self.took(','):
            found.append(self.expression())
        self.take(')')
        return found


class Value:
    """What an expression is: a term, its type, its clock (a flow, None for the main node's base clock, or FREE), and a constant's value."""

    def __init__(self, term, kind, clock, constant=None):
        self.term, self.kind, self.clock, self.constant = term, kind, clock, constant


def constant(value, kind):
    """The Value of a constant."""
    if kind == 'bool':
        term = 'true' if value else 'false'
    else:
        term = str(value) if value >= 0 else '(- %d)' % -value
    return Value(term, kind, FREE, value)


def joined(operator, terms, empty):
    """The terms under an operator that takes any number of them."""
    terms = [term for term in terms if term != empty]
    if len(terms) > 1:
        return '(%s %s)' % (operator, ' '.join(terms))
    return terms[0] if terms else empty


class Instance:
    """A copy of a node: the beginning of its variables' names, its base clock and the Values of its flows."""

    def __init__(self, node, path, base):
        self.node, self.path, self.base, self.flows, self.memories, self.parts = node, path, base, {}, {}, 0


class System:
    """All instances of a program's main node, flattened."""

    def __init__(self, program, main):
        self.program, self.variables, self.equations, self.assertions = program, [], [], []
        self.ticks = {None: ('tick!', 'true')}  # by clock: the tick, and what it is at the next instant
        self.memories = []                      # (name, type, what it holds at the next instant)
        self.main = self.instance(main, main, None)
        self.observer = self.main.flows[self.main.node.outputs[0][0]].term

    def instance(self, name, path, base):
        node = self.program.nodes.get(name)
        if node is None:
            sys.exit('there is no node ' + name)
        made = Instance(node, path, base)
        declared = [flow + (None,) for flow in node.inputs + node.outputs] + node.locals
        for flow, kind, clock in declared:
            made.flows[flow] = Value(self.variable(path + '/' + flow, self.program.types[kind]), self.program.types[kind], base)
        for flow, kind, clock in declared:
            if clock is not None:
                made.flows[flow].clock = made.flows[clock]
        for lefts, right in node.equations:
            self.equation(made, lefts, right)
        for body in node.assertions:
            found = self.value(made, body)
            present = self.present(made.base if found.clock is FREE else found.clock)
            self.assertions.append(found.term if present == 'true' else '(=> %s %s)' % (present, found.term))
        return made

    def variable(self, name, kind):
        self.variables.append((name, kind))
        return name

    def equation(self, instance, lefts, right):
        if right.operator == 'call':
            found = self.call(instance, right)
        else:
            found = [self.value(instance, right)]
        for left, value in zip(lefts, found):
            self.equations.append('(= %s %s)' % (instance.flows[left].term, value.term))

    def present(self, clock):
        """Where a clock is there: where its flow is there and true."""
        terms = []
        while clock is not None:
            terms.append(clock.term)
            clock = clock.clock
        return joined('and', terms, 'true')

    def value(self, instance, tree):
        operator = tree.operator
        if operator in ('bool', 'int'):
            return constant(tree.word, operator)
        if operator == 'name':
            return self.named(instance, tree.word)
        if operator == 'call':
            return self.call(instance, tree)[0]
        if operator in ('pre', 'current'):
            return self.remembered(instance, tree)
        parts = [self.value(instance, part) for part in tree.operands]
        if operator == 'when':
            return Value(parts[0].term, parts[0].kind, instance.flows[tree.word])
        if operator == '->':
            clock = self.common(instance, parts)
            return Value('(ite %s %s %s)' % (self.tick(clock), parts[1].term, parts[0].term), parts[0].kind, clock)
        return self.instantly(operator, parts)

    def named(self, instance, name):
        if name in instance.flows:
            return instance.flows[name]
        if name in self.program.labels:
            return constant(*self.program.labels[name])
        if name in self.program.constants:
            return self.value(Instance(None, '', None), self.program.constants[name])
        sys.exit('the name %s is not declared' % name)

    def instantly(self, operator, parts):
        kind, form, compute = INSTANTLY[operator]
        kind = kind or parts[-1].kind
        clocks = [part.clock for part in parts if part.clock is not FREE]
        if not clocks:
            return constant(compute(*(part.constant for part in parts)), kind)
        terms = [part.term for part in parts]
        if operator == '#':
            pairs = ['(not (and %s %s))' % (one, other) for place, one in enumerate(terms) for other in terms[:place]]
            return Value(joined('and', pairs, 'true'), kind, clocks[0])
        return Value(form.format(*terms), kind, clocks[0])

    def common(self, instance, parts):
        """The clock of a `->`, a `pre` or a call: that of the operands that have one, else the base clock."""
        return next((part.clock for part in parts if part.clock is not FREE), instance.base)

    def tick(self, clock):
        if clock not in self.ticks:
            name = 'tick!' + clock.term
            self.ticks[clock] = (name, '(or %s %s)' % (name, self.present(clock)))
        return self.ticks[clock][0]

    def remembered(self, instance, tree):
        """A `pre` or `current`: all of one flow read one memory, each other has its own."""
        operand = tree.operands[0]
        found = self.value(instance, operand)
        clock = self.common(instance, [found])
        shared = operand.operator == 'name' and operand.word in instance.flows
        if shared:
            term = found.term
        else:
            instance.parts += 1
            term = self.variable('%s/part!%d' % (instance.path, instance.parts), found.kind)
            self.equations.append('(= %s %s)' % (term, found.term))
        memory = 'last!' + term
        present = self.present(clock)
        if memory not in instance.memories:
            instance.memories[memory] = True
            self.memories.append((memory, found.kind, term if present == 'true' else '(ite %s %s %s)' % (present, term, memory)))
        if tree.operator == 'pre':
            return Value(memory, found.kind, clock)
        return Value('(ite %s %s %s)' % (clock.term, term, memory), found.kind, clock.clock)

    def call(self, instance, tree):
        """The outputs of a call, whose instance is made here."""
        arguments = [self.value(instance, part) for part in tree.operands]
        instance.parts += 1
        path = '%s/%s!%d' % (instance.path, tree.word, instance.parts)
        clock = self.common(instance, arguments)
        made = self.instance(tree.word, path, clock)
        for (flow, kind), argument in zip(made.node.inputs, arguments):
            self.equations.append('(= %s %s)' % (made.flows[flow].term, argument.term))
        return [Value(made.flows[flow].term, made.flows[flow].kind, clock) for flow, kind in made.node.outputs]

    def sort(self, kind):
        return 'Bool' if kind == 'bool' else 'Int'

    def ranges(self, variables):
        """That labels are labels of their type."""
        return ['(<= 0 %s %d)' % (name, self.program.sizes[kind] - 1) for name, kind in variables if kind in self.program.sizes]

    def quantified(self, variables, premises, conclusion):
        body = '(=> %s %s)' % (joined('and', premises, 'true'), conclusion)
        if variables:
            body = '(forall (%s) %s)' % (' '.join('(%s %s)' % (name, self.sort(kind)) for name, kind in variables), body)
        return '(assert %s)' % body

    def clauses(self):
        ticks = list(self.ticks.values())
        held = [(name, kind) for name, kind, following in self.memories]
        state = [(name, 'bool') for name, following in ticks] + held
        reached = '(Reached %s)' % ' '.join(name for name, kind in state)
        start = '(Reached %s)' % ' '.join(['false'] * len(ticks) + [name for name, kind in held])
        next_state = '(Reached %s)' % ' '.join([following for name, following in ticks] + [following for name, kind, following in self.memories])
        inputs = [(self.main.flows[flow].term, self.main.flows[flow].kind) for flow, kind in self.main.node.inputs]
        step = [reached] + self.ranges(held + inputs) + self.equations + self.assertions
        everything = state + self.variables
        return ['(set-logic HORN)', '(declare-fun Reached (%s) Bool)' % ' '.join(self.sort(kind) for name, kind in state),
                self.quantified(held, self.ranges(held), start),
                self.quantified(everything, step, next_state),
                self.quantified(everything, step + ['(not %s)' % self.observer], 'false'),
                '(check-sat)']


if __name__ == '__main__':
    sys.setrecursionlimit(20000)
    source, main_node = sys.argv[1:]
    print('\n'.join(System(Reader(open(source).read()).program(), main_node).clauses()))
