"""Transition systems over integers of the worked programs and of examples, for bench/polyhedra.sh.

`polyhedra.py FOLDER EXAMPLES` writes NAME.lus and NAME.system for each safe program of spacer.py and of EXAMPLES below, and prints a line
`NAME NODE` for each; with the word `faulty` behind, for those that are not safe, and the examples with a fault in their place.

The equations of the programs are those of spacer.py, those of the examples are written by hand in the same way below. From them the control
states and the cases are made: a control state has a value for each Boolean and each enumeration that is remembered, and state 0 is the start, at
which every memory is free. A case is a path through the equations on which each comparison of integers is decided: it has the rows of its
comparisons, which are over integers (`<` is `<= -1`, and a row is divided by what its numbers have in common), and what the integer
memories become. Boolean inputs are gone from it. Cases that do the same are joined where their rows differ in one left side.

    memories first second    the columns: the integer memories, and the integer inputs
    inputs inflow
    states 2                 how many control states
    step 0 1                 a case, from a control state to one, with its lines
    row <= 4 1 -1            the sum of these multiples of the columns is at most 4, or is 4 with `=`
    set 0 1 1 0              memory 0 becomes 1, once the first column, and 0 times the second
    bad 1                    the observer is false where these rows hold
"""
import itertools
import math
import sys

import spacer

# name, node, source, memories, inputs and flows, equations of the flows, assumption, next memories, observer, as in spacer.py
EXAMPLES = [
    ('chase', 'main', None, [('pf', 'Int'), ('ps', 'Int')], [('go', 'Bool'), ('follow', 'Bool'), ('first', 'Int'), ('second', 'Int')],
     ['(= first (ite began (ite (and go (< (- pf ps) 5)) (+ pf 1) pf) 0))', '(= second (ite began (ite (and follow (< ps pf)) (+ ps 1) ps) 0))'],
     'true', ['first', 'second'], '(and (<= second first) (<= (- first second) 5))'),
    ('brake', 'main', None, [('pd', 'Int'), ('ps', 'Int')], [('power', 'Bool'), ('coast', 'Bool'), ('gains', 'Bool'), ('speed', 'Int'), ('distance', 'Int')],
     ['(= gains (and began power (> (- pd ps) 2)))',
      '(= speed (ite began (ite gains (+ ps 1) (ite (and (> ps 0) (or (not coast) (<= (- pd ps) 1))) (- ps 1) ps)) 0))',
      '(= distance (ite began (ite (> ps 0) (- pd 1) pd) 100))'], 'true', ['distance', 'speed'], '(<= speed distance)'),
    ('queue', 'main', None, [('pc', 'Int'), ('pg', 'Int'), ('pl', 'Int')],
     [('put', 'Bool'), ('take', 'Bool'), ('comes', 'Bool'), ('goes', 'Bool'), ('come', 'Int'), ('gone', 'Int'), ('length', 'Int')],
     ['(= comes (and began put (< pl 8)))', '(= goes (and began take (> pl 0)))', '(= come (ite began (ite comes (+ pc 1) pc) 0))',
      '(= gone (ite began (ite goes (+ pg 1) pg) 0))', '(= length (ite began (- (+ pl (ite comes 1 0)) (ite goes 1 0)) 0))'],
     'true', ['come', 'gone', 'length'], '(and (<= 0 length) (<= length 8) (= length (- come gone)))'),
    ('bucket', 'main', None, [('pt', 'Int'), ('ps', 'Int'), ('pk', 'Int')],
     [('tick', 'Bool'), ('send', 'Bool'), ('goes', 'Bool'), ('ticks', 'Int'), ('sent', 'Int'), ('tokens', 'Int')],
     ['(= goes (and began send (> pk 0)))', '(= ticks (ite began (ite tick (+ pt 1) pt) 0))', '(= sent (ite began (ite goes (+ ps 1) ps) 0))',
      '(= tokens (ite began (- (ite (and tick (< pk 10)) (+ pk 1) pk) (ite goes 1 0)) 10))'],
     'true', ['ticks', 'sent', 'tokens'], '(and (<= 0 tokens) (<= (+ sent tokens) (+ ticks 10)))'),
    # the valve is 0 closed, 1 first, 2 second, 3 third
    ('mixer', 'main', None, [('pa', 'Int'), ('pb', 'Int'), ('pc', 'Int')], [('open', 'Int'), ('a', 'Int'), ('b', 'Int'), ('c', 'Int')],
     ['(= a (ite began (ite (= open 1) (- pa 1) (ite (= open 3) (+ pa 1) pa)) 10))', '(= b (ite began (ite (= open 2) (- pb 1) (ite (= open 1) (+ pb 1) pb)) 10))',
      '(= c (ite began (ite (= open 3) (- pc 1) (ite (= open 2) (+ pc 1) pc)) 10))'], 'true', ['a', 'b', 'c'], '(= (+ a b c) 30)'),
    ('tank', 'main', None, [('pl', 'Int'), ('pfirst', 'Bool')], [('draw', 'Int'), ('level', 'Int'), ('first', 'Bool'), ('second', 'Bool')],
     ['(= first (and began (ite (<= pl 20) true (ite (>= pl 80) false pfirst))))', '(= second (and began (<= pl 40) first))',
      '(= level (ite began (ite (>= pl 3) (ite (and first second) (- (+ pl 3) draw) (ite first (- (+ pl 2) draw) (- pl draw))) (ite first (+ pl 2) pl)) 50))'],
     '(and (>= draw 0) (<= draw 3))', ['level', 'first'], '(and (>= level 0) (<= level 81))'),
    ('limiter', 'main', None, [('ps', 'Int'), ('pbrake', 'Bool')], [('faster', 'Bool'), ('slower', 'Bool'), ('speed', 'Int'), ('brake', 'Bool')],
     ['(= brake (and began (ite (>= ps 120) true (ite (<= ps 110) false pbrake))))',
      '(= speed (ite began (ite brake (- ps 3) (ite faster (+ ps 2) (ite (and slower (>= ps 2)) (- ps 2) ps))) 0))'],
     'true', ['speed', 'brake'], '(and (<= speed 121) (>= speed 0))'),
    # the modes are 0 closed, 1 held_open, 2 closing
    ('timed_door', 'main', None, [('pm', 'Int'), ('pleft', 'Int')], [('request', 'Bool'), ('m', 'Int'), ('last', 'Int'), ('left', 'Int')],
     ['(= last (ite began pm 0))',
      '(= m (ite request 1 (ite began (ite (and (= last 1) (<= pleft 0)) 2 (ite (and (= last 2) (<= pleft 0)) 0 last)) 0)))',
      '(= left (ite request 30 (ite began (ite (= m 1) (- pleft 1) (ite (and (= m 2) (= last 1)) 5 (ite (= m 2) (- pleft 1) 0))) 0)))'],
     'true', ['m', 'left'], '(and (>= left 0) (<= left 30) (or request (not (= m 1)) (= last 1)))'),
    ('debounce', 'main', None, [('praw', 'Bool'), ('pcount', 'Int'), ('pout', 'Bool')],
     [('raw', 'Bool'), ('same', 'Bool'), ('count', 'Int'), ('out', 'Bool'), ('was', 'Bool')],
     ['(= same (or (not began) (= raw praw)))', '(= count (ite began (ite (not same) 1 (ite (< pcount 5) (+ pcount 1) 5)) 1))',
      '(= was (and began pout))', '(= out (ite (>= count 5) raw was))'],
     'true', ['raw', 'count', 'out'], '(and (>= count 1) (<= count 5) (or (= out was) (and same (= out raw))))'),
    # 0 open, 1 shut; 0 up, 1 down, 2 still
    ('floors', 'main', None, [('pfloor', 'Int'), ('pdoor', 'Int')],
     [('call', 'Int'), ('enter', 'Bool'), ('floor', 'Int'), ('from', 'Int'), ('move', 'Int'), ('door', 'Int'), ('was', 'Int')],
     ['(= from (ite began pfloor 0))', '(= was (ite began pdoor 1))', '(= move (ite (or (= was 0) (= call from)) 2 (ite (> call from) 0 1)))',
      '(= floor (ite (and (= move 0) (< from 9)) (+ from 1) (ite (and (= move 1) (> from 0)) (- from 1) from)))', '(= door (ite (and enter (= move 2)) 0 1))'],
     '(and (>= call 0) (<= call 9))', ['floor', 'door'], '(and (>= floor 0) (<= floor 9) (=> (= door 0) (= move 2)))'),
    # the dispenser ticks at the first instant, so that its `->` is at its left operand there alone
    ('dosing', 'main', None, [('pgiven', 'Int'), ('mgiven', 'Int'), ('mdose', 'Bool')],
     [('ask', 'Bool'), ('refill', 'Bool'), ('tick', 'Bool'), ('given', 'Int'), ('before', 'Int'), ('dose', 'Bool')],
     ['(= tick (or (not began) ask))', '(= before (ite began pgiven 0))', '(= given (ite refill 0 (ite (< before 10) (+ before 1) before)))',
      '(= dose (> given before))'],
     'true', ['(ite tick given pgiven)', '(ite tick given mgiven)', '(ite tick dose mdose)'],
     '(and (>= (ite tick given mgiven) 0) (<= (ite tick given mgiven) 10) (not (and tick refill (ite tick dose mdose))))'),
    # the modes are 0 Off, 1 Heating, 2 Locked
    ('heater', 'main', None, [('pm', 'Int'), ('pn', 'Int'), ('mshown', 'Int')],
     [('temperature', 'Int'), ('reset', 'Bool'), ('sampled', 'Bool'), ('last', 'Int'), ('m', 'Int'), ('worked', 'Int')],
     ['(= last (ite began pm 0))',
      '(= m (ite (> temperature 32) 2 (ite (and (= last 2) (not reset)) 2 (ite (< temperature 18) 1 (ite (>= temperature 22) 0 last)))))',
      '(= worked (ite began (ite (and (= m 1) (< pn 5)) (+ pn 1) pn) 0))'],
     '(and (>= temperature (- 40)) (<= temperature 60))', ['m', 'worked', '(ite sampled worked mshown)'],
     '(and (not (and (= m 0) (= m 1))) (not (and (= m 0) (= m 2))) (not (and (= m 1) (= m 2))) (<= worked 5) (=> sampled (= (ite sampled worked mshown) worked)))'),
]
# examples with a fault: the example that each is made of, and what stands in it for what
FAULTY = [
    ('chase_sixth', 'chase', '(< (- pf ps) 5)', '(<= (- pf ps) 5)'),
    ('brake_late', 'brake', '(> (- pd ps) 2)', '(> (- pd ps) 0)'),
    ('queue_taken', 'queue', '(> pl 0)', '(>= pl 0)'),
    ('bucket_full', 'bucket', '(and tick (< pk 10))', '(and tick (or (< pk 10) goes))'),
    ('mixer_leaks', 'mixer', '(ite (= open 3) (+ pa 1) pa)', 'pa'),
]
FAULTY_OBSERVERS = {'bucket_full': '(or (<= (+ tokens sent) (+ ticks 9)) (< ticks 3))'}
# the programs of spacer.py whose observer can be false
NOT_SAFE = ['free_start', 'input_below_a_hundred', 'current_before_the_first', 'one_label']
# what is an enumeration, and of how many labels
LABELS = {('pump_station', 'pm'): 4, ('three_labels', 's'): 3, ('mixer', 'open'): 4, ('mixer_leaks', 'open'): 4, ('timed_door', 'pm'): 3,
          ('floors', 'pdoor'): 2, ('heater', 'pm'): 3}


def parsed(text):
    """The lists of a symbolic expression."""
    stack = [[]]
    for token in text.replace('(', ' ( ').replace(')', ' ) ').split():
        if token == '(':
            stack.append([])
        elif token == ')':
            done = stack.pop()
            stack[-1].append(done)
        else:
            stack[-1].append(token)
    assert len(stack) == 1 and len(stack[0]) == 1, text
    return stack[0][0]


class Left(Exception):
    """An assertion is false on this path."""


class Path:
    """One way to decide what a step reads: the first decisions are given, the later ones are True."""

    def __init__(self, choices):
        self.choices, self.at = choices, 0
        self.free = {}
        self.bounds = {}

    def choose(self):
        if self.at == len(self.choices):
            self.choices.append(True)
        self.at += 1
        return self.choices[self.at - 1]

    def label(self, name, labels):
        """The value of an input, or of a memory at the start."""
        if name not in self.free:
            self.free[name] = next(k for k in range(labels) if k == labels - 1 or self.choose())
        return self.free[name]

    def at_most_zero(self, form):
        """Whether a linear form, its constant first, is at most 0."""
        constant, numbers = form[0], form[1:]
        common = math.gcd(*numbers) if numbers else 0
        if common == 0:
            return constant <= 0
        numbers = tuple(n // common for n in numbers)
        if next(n for n in numbers if n) > 0:
            least, most = None, (-constant) // common
        else:
            # numbers * x <= most is -numbers * x >= -most
            numbers = tuple(-n for n in numbers)
            least, most = -((-constant) // common), None
        low, high = self.bounds.get(numbers, (None, None))
        if most is not None:
            if high is not None and high <= most:
                return True
            if low is not None and low > most:
                return False
            held = self.choose()
            self.bounds[numbers] = (low, most) if held else (most + 1, high)
            return held
        if low is not None and low >= least:
            return True
        if high is not None and high < least:
            return False
        held = self.choose()
        self.bounds[numbers] = (least, high) if held else (low, least - 1)
        return held


def paths(step):
    """Each path of a step that no assertion leaves, with what the step gives on it."""
    choices = []
    while True:
        path = Path(choices)
        try:
            yield path, step(path)
        except Left:
            pass
        while choices and not choices[-1]:
            choices.pop()
        if not choices:
            return
        choices[-1] = False


class System:
    def __init__(self, program):
        self.name, self.node, self.lustre, memories, flows, equations, assumption, following, observer = program
        equations = [parsed(e) for e in equations]
        flow_names = [v for v, kind in flows]
        self.equations, self.assumed = {}, [parsed(assumption)]
        for e in equations:
            if e[0] == '=' and e[1] in flow_names and e[1] not in self.equations:
                self.equations[e[1]] = e[2]
            else:
                self.assumed.append(e)
        self.kinds = dict([('began', 'Bool')] + memories + flows)
        self.labels = {v: 2 for v, kind in self.kinds.items() if kind == 'Bool'}
        self.labels.update({v: LABELS[self.name, v] for v in self.kinds if (self.name, v) in LABELS})
        self.control = ['began'] + [v for v, kind in memories if v in self.labels]
        self.memories = [v for v, kind in memories if v not in self.labels]
        self.inputs = [v for v in flow_names if v not in self.labels and v not in self.equations]
        self.columns = self.memories + self.inputs
        self.following = dict(zip([v for v, kind in memories], map(parsed, following)), began='true')
        self.observer = parsed(observer)

    def number(self, value):
        return (value,) + (0,) * len(self.columns)

    def value(self, e, path, state):
        """A Boolean, or a linear form."""
        if isinstance(e, str):
            return self.atom(e, path, state)
        def of(k):
            return self.value(e[k], path, state)
        def rest():
            return [self.value(part, path, state) for part in e[1:]]
        word = e[0]
        if word == 'ite':
            return of(2) if of(1) else of(3)
        if word == 'not':
            return not of(1)
        if word == 'and':
            return all(self.value(part, path, state) for part in e[1:])
        if word == 'or':
            return any(self.value(part, path, state) for part in e[1:])
        if word == '=>':
            return of(2) if of(1) else True
        if word == '+':
            return tuple(map(sum, zip(*rest())))
        if word == '-':
            first, *others = rest()
            if not others:
                return tuple(-n for n in first)
            return tuple(n - sum(o) for n, *o in zip(first, *others))
        parts = rest()
        if word == '=' and isinstance(parts[0], bool):
            return parts[0] == parts[1]
        assert word in ('=', '<', '<=', '>', '>='), word
        return all(self.compared(word, a, b, path) for a, b in zip(parts, parts[1:]))

    def compared(self, word, a, b, path):
        def at_most(x, y, more):
            return path.at_most_zero((x[0] - y[0] + more,) + tuple(m - n for m, n in zip(x[1:], y[1:])))
        if word == '=':
            return at_most(a, b, 0) and not at_most(a, b, 1)
        return {'<': lambda: at_most(a, b, 1), '<=': lambda: at_most(a, b, 0), '>': lambda: at_most(b, a, 1), '>=': lambda: at_most(b, a, 0)}[word]()

    def atom(self, name, path, state):
        if name in ('true', 'false'):
            return name == 'true'
        if name.isdigit():
            return self.number(int(name))
        if name in self.equations:
            return self.value(self.equations[name], path, state)
        if name in self.columns:
            return self.number(0)[:1] + tuple(int(name == v) for v in self.columns)
        if name in self.control and state is not None:
            value = state[self.control.index(name)]
        elif name in ('began', 'ticked'):
            value = 0
        else:
            value = path.label(name, self.labels[name])
        return bool(value) if self.kinds[name] == 'Bool' else self.number(value)

    def assume(self, path, state):
        for e in self.assumed:
            if not self.value(e, path, state):
                raise Left

    def step(self, path, state):
        """The next control state, and what the integer memories become."""
        self.assume(path, state)
        control = []
        for v in self.control:
            value = self.value(self.following[v], path, state)
            if not isinstance(value, bool):
                assert not any(value[1:]), v
                value = value[0]
            control.append(int(value))
        return tuple(control), tuple(self.value(self.following[v], path, state) for v in self.memories)

    def falsified(self, path, state):
        self.assume(path, state)
        if self.value(self.observer, path, state):
            raise Left

    def text(self):
        """The whole system, its control states in the order in which they are found; None is the start."""
        states, out = [None], []
        for state in states:
            cases = {}
            for path, (control, updates) in paths(lambda path: self.step(path, state)):
                cases.setdefault((control, updates), []).append(path.bounds)
            for (control, updates), guards in cases.items():
                if control not in states:
                    states.append(control)
                for guard in joined(guards):
                    out += ['step %d %d' % (states.index(state), states.index(control))] + rows(guard)
                    for k, form in enumerate(updates):
                        if form != self.value(self.memories[k], None, None):
                            out.append(' '.join(map(str, ('set', k) + form)))
            for guard in joined([path.bounds for path, _ in paths(lambda path: self.falsified(path, state))]):
                out += ['bad %d' % states.index(state)] + rows(guard)
        names = ['# %d %s' % (k, 'start' if s is None else ' '.join('%s=%d' % p for p in zip(self.control, s))) for k, s in enumerate(states)]
        head = ['memories ' + ' '.join(self.memories), 'inputs ' + ' '.join(self.inputs), 'states %d' % len(states)]
        return '\n'.join(line.rstrip() for line in head + names + out) + '\n'


def covers(a, b):
    """Whether all that meets the bounds b meets the bounds a."""
    for form, (low, high) in a.items():
        own_low, own_high = b.get(form, (None, None))
        if low is not None and (own_low is None or own_low < low) or high is not None and (own_high is None or own_high > high):
            return False
    return True


def pair(a, b):
    """The bounds that hold of the integers of two, where that are bounds."""
    differ = [form for form in {**a, **b} if a.get(form) != b.get(form)]
    if len(differ) != 1 or differ[0] not in a or differ[0] not in b:
        return None
    form = differ[0]
    (low, high), (low2, high2) = a[form], b[form]
    for one, other in (((low, high), (low2, high2)), ((low2, high2), (low, high))):
        if one[1] is not None and other[0] is not None and one[1] + 1 < other[0]:
            return None
    both = dict(a)
    both[form] = (None if None in (low, low2) else min(low, low2), None if None in (high, high2) else max(high, high2))
    if both[form] == (None, None):
        del both[form]
    return both


def joined(guards):
    """Fewer bounds that together hold of the same integers."""
    guards = [dict(g) for g in guards]
    while True:
        kept = []
        for k, g in enumerate(guards):
            if not any(covers(o, g) and (o != g or j < k) for j, o in enumerate(guards) if j != k):
                kept.append(g)
        guards = kept
        for a, b in itertools.combinations(guards, 2):
            both = pair(a, b)
            if both is not None:
                guards = [g for g in guards if g is not a and g is not b] + [both]
                break
        else:
            return guards


def rows(bounds):
    out = []
    for form, (low, high) in sorted(bounds.items()):
        if low == high:
            out.append(' '.join(map(str, ('row', '=', low) + form)))
            continue
        if high is not None:
            out.append(' '.join(map(str, ('row', '<=', high) + form)))
        if low is not None:
            out.append(' '.join(map(str, ('row', '<=', -low) + tuple(-n for n in form))))
    return out


def faulty():
    """The examples with a fault."""
    known = {program[0]: program for program in EXAMPLES}
    for name, origin, one, other in FAULTY:
        program = list(known[origin])
        assert sum(one in e for e in program[5]) == 1, name
        program[0], program[5] = name, [e.replace(one, other) for e in program[5]]
        program[8] = FAULTY_OBSERVERS.get(name, program[8])
        yield tuple(program)


def main():
    if len(sys.argv) not in (3, 4) or sys.argv[3:] not in ([], ['faulty']):
        sys.exit(__doc__)
    folder, examples = sys.argv[1:3]
    worked = spacer.PROGRAMS + [spacer.PUMP]
    if sys.argv[3:]:
        programs = [p for p in worked if p[0] in NOT_SAFE] + list(faulty())
    else:
        programs = [p for p in worked if p[0] not in NOT_SAFE] + EXAMPLES
    for program in programs:
        name, node, lustre = program[:3]
        if lustre is None:
            lustre = open(examples + '/' + name + '.lus').read()
        open('%s/%s.lus' % (folder, name), 'w').write(lustre)
        open('%s/%s.system' % (folder, name), 'w').write(System(program).text())
        print(name, node)


if __name__ == '__main__':
    main()
