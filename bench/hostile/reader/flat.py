"""The instances of a main node, what they remember and compare, and the value of every flow at an instant, in an algebra of values."""
from .source import within

MAIN = ()


class Flat:
    """A main node with all that it calls: its memories, ticks, inputs, tests and assertions, by places."""

    def __init__(self, program, main):
        self.program, self.main = program, main
        self.node_of, self.base, self.call_of = {MAIN: main}, {MAIN: None}, {}
        self.memories, self.tests, self.ticks, self.assertions = {}, {}, set(), []
        waiting = [MAIN]
        while waiting:
            instance = waiting.pop()
            waiting += self.opened(instance)
        self.memories = dict(sorted(self.memories.items()))
        self.tests = dict(sorted(self.tests.items()))
        self.ticks = sorted(self.ticks)
        self.assertions.sort()
        top = program.nodes[main]
        self.inputs = [(name, top.flows[name][0]) for name in top.inputs]

    def node(self, instance):
        return self.program.nodes[self.node_of[instance]]

    def opened(self, instance):
        """Gathers what stands in an instance; the instances that it calls."""
        node, called = self.node(instance), []
        for right in [right for _, right in node.equations] + node.assertions:
            for e in within(right):
                if e.form == "call":
                    child = instance + (e.site,)
                    self.node_of[child], self.call_of[child] = e.what, e
                    called.append(child)
        self.bases(instance, called)
        for lefts, right in node.equations:
            self.gathered(instance, right, self.flow_clock(instance, lefts[0]))
        for e in node.assertions:
            clock = self.clock(instance, e.parts[0])
            self.gathered(instance, e.parts[0], self.base[instance] if clock is FREE else clock)
            self.assertions.append((instance + (e.site,), instance, e.parts[0], self.base[instance] if clock is FREE else clock))
        return called

    def bases(self, instance, called):
        """The base clocks of called instances: those of their arguments."""
        left = list(called)
        while left:
            rest = []
            for child in left:
                try:
                    clocks = [self.clock(instance, part) for part in self.call_of[child].parts]
                except KeyError:
                    rest.append(child)
                    continue
                held = [clock for clock in clocks if clock is not FREE]
                self.base[child] = held[0] if held else self.base[instance]
            left = rest

    def flow_clock(self, instance, name):
        """The absolute clock of a flow: None for the main one, else the instance and name of the flow whose truth it is."""
        clock = self.node(instance).flows[name][1]
        return self.base[instance] if clock is None else (instance, clock)

    def clock(self, instance, e):
        """The absolute clock of an expression, or FREE."""
        node = self.node(instance)
        if e.form == "literal":
            return FREE
        if e.form == "name":
            return self.flow_clock(instance, e.what) if e.what in node.flows else FREE
        if e.form == "when":
            return (instance, e.what)
        if e.form == "current":
            on_instance, flow = self.clock(instance, e.parts[0])
            return self.flow_clock(on_instance, flow)
        if e.form == "call":
            return self.base[instance + (e.site,)]
        clocks = [clock for clock in (self.clock(instance, part) for part in e.parts) if clock is not FREE]
        if clocks:
            return clocks[0]
        return self.base[instance] if e.form in ("pre", "binary") and (e.form == "pre" or e.what == "->") else FREE

    def place(self, instance, name):
        return instance + (self.node(instance).flows[name][2],)

    def gathered(self, instance, e, context):
        """Gathers memories, tests and ticks of an expression that takes the clock of its context where it is free."""
        own = self.clock(instance, e)
        clock = context if own is FREE else own
        if e.form in ("pre", "current"):
            operand = e.parts[0]
            held = self.clock(instance, operand)
            self.memories[self.memory(instance, e)] = (instance, operand, clock if held is FREE else held, self.kind(instance, operand))
            context = clock if held is FREE else held
        elif e.form == "call":
            context = self.base[instance + (e.site,)]
        elif e.form == "when":
            context = self.flow_clock(instance, e.what)
        else:
            context = clock
        if e.form == "compare" and self.kind(instance, e.parts[0]) == ("int",):
            self.tests[instance + (e.site,)] = (instance, e, clock)
        if e.form == "binary" and e.what == "->" and clock is not None:
            self.ticks.add((self.place(*clock), clock))
        for part in e.parts:
            self.gathered(instance, part, context)

    def memory(self, instance, e):
        """The place of the memory of a `pre` or `current`."""
        operand = e.parts[0]
        named = operand.form == "name" and operand.what in self.node(instance).flows
        return self.place(instance, operand.what) if named else instance + (e.site,)

    def kind(self, instance, e):
        """The type of an expression."""
        node = self.node(instance)
        if e.form == "literal":
            return e.what[0]
        if e.form == "name":
            if e.what in node.flows:
                return node.flows[e.what][0]
            return (self.program.constants.get(e.what) or self.program.labels[e.what])[0]
        if e.form == "call":
            callee = self.program.nodes[e.what]
            return callee.flows[callee.outputs[0]][0]
        if e.form in ("pre", "current", "when", "-", "if") or e.what in ("->", "+", "*", "-"):
            return self.kind(instance, e.parts[-1])
        return ("bool",)


FREE = object()


class Instant:
    """The values of all flows at one instant, in an algebra: each flow is computed once, when it is asked for."""

    def __init__(self, flat, algebra):
        self.flat, self.algebra, self.known, self.there = flat, algebra, {}, {None: algebra.truth(True)}

    def present(self, clock):
        """Where an absolute clock is present."""
        if clock not in self.there:
            instance, name = clock
            on = self.flat.flow_clock(instance, name)
            self.there[clock] = self.algebra.both(self.present(on), lambda: self.flow(instance, name))
        return self.there[clock]

    def flow(self, instance, name):
        """The value of a flow."""
        if (instance, name) not in self.known:
            self.known[instance, name] = self.found(instance, name)
        return self.known[instance, name]

    def found(self, instance, name):
        node, flat = self.flat.node(instance), self.flat
        if name in node.inputs:
            number = node.inputs.index(name)
            if instance == MAIN:
                return self.algebra.input(number)
            return self.value(instance[:-1], flat.call_of[instance].parts[number], flat.base[instance])
        right, number = node.right_of[name]
        if number is None:
            return self.value(instance, right, flat.flow_clock(instance, name))
        return self.output(instance, right, number)

    def output(self, instance, e, number):
        child = instance + (e.site,)
        return self.flow(child, self.flat.node(child).outputs[number])

    def value(self, instance, e, context):
        """The value of an expression that takes the clock of its context where it is free."""
        flat, algebra = self.flat, self.algebra
        if e.form == "literal":
            return algebra.constant(e.what)
        if e.form == "name":
            if e.what in flat.node(instance).flows:
                return self.flow(instance, e.what)
            return algebra.constant(flat.program.constants.get(e.what) or flat.program.labels[e.what])
        if e.form == "call":
            return self.output(instance, e, 0)
        own = flat.clock(instance, e)
        clock = context if own is FREE else own
        if e.form == "when":
            return self.value(instance, e.parts[0], flat.flow_clock(instance, e.what))
        if e.form == "pre":
            return algebra.memory(flat.memory(instance, e))
        if e.form == "current":
            held = flat.clock(instance, e.parts[0])
            return algebra.choice(self.present(held), lambda: self.value(instance, e.parts[0], held), lambda: algebra.memory(flat.memory(instance, e)))
        if e.form == "binary" and e.what == "->":
            later, first = (lambda: self.value(instance, e.parts[1], clock)), (lambda: self.value(instance, e.parts[0], clock))
            return algebra.choice(algebra.tick(clock), later, first)
        parts = [self.value(instance, part, clock) for part in e.parts]
        if e.form == "if":
            return algebra.choice(parts[0], lambda: parts[1], lambda: parts[2])
        if e.form == "compare":
            return algebra.compared(instance + (e.site,), e.what, flat.kind(instance, e.parts[0]), *parts)
        return algebra.applied(e.form, e.what, flat.kind(instance, e.parts[-1]), parts)

    def operand(self, place):
        """Where the operand of a memory is present, and its value there."""
        instance, e, clock, _ = self.flat.memories[place]
        return self.present(clock), lambda: self.value(instance, e, clock)
