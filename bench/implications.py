"""The implications of an invariant file of examples/pump_station.lus as a script for SMT solvers, for bench/implications.sh.

`implications.py INVARIANT` prints it. Each `check-sat` asks for a state that breaks one: an initial control state that no location holds,
a row that the entry rows do not show, a state that no entry covers, a step after which the observer is false or the target's rows do not
hold, or a state of an entry that is said to be dead. All answers are to be `unsat`. The step of the monitor is written by hand."""
import csv
import sys

# the diagram variables of the monitor by their texts, and what they are
BITS = {'tick': 'tick', 'memory:5:0': 'm0', 'memory:5:1': 'm1', 'memory:16.0:0': 'started', 'memory:17.0:0': 'stopped', 'input:start:0': 'start',
        'input:stop:0': 'stop', 'input:fault:0': 'fault', 'test:13:ge': '(>= inflow 0)', 'test:14:le': '(<= inflow 3)', 'test:20:ge': '(>= pwait 5)',
        'test:23:le': '(<= plevel 97)', 'test:27:ge': '(>= plevel 2)', 'test:32:ge': '(>= level 97)', 'test:34:ge': '(>= level 2)', 'test:36.3:ge': '(>= pn 5)',
        'test:38:ge': '(>= level 0)', 'test:39:le': '(<= level 100)', 'test:40:le': '(<= wait 5)'}
NEXT = {'tick': 'true', 'm0': 'n0', 'm1': 'n1', 'started': 'start', 'stopped': 'stop'}
COLUMNS = {'memory:7': ('plevel', 'level'), 'memory:8': ('pwait', 'wait'), 'memory:36.1': ('pn', 'wait')}
HEAD = '''(set-logic QF_LIA)
(declare-const tick Bool) (declare-const m0 Bool) (declare-const m1 Bool) (declare-const started Bool) (declare-const stopped Bool)
(declare-const start Bool) (declare-const stop Bool) (declare-const fault Bool)
(declare-const plevel Int) (declare-const pwait Int) (declare-const pn Int) (declare-const inflow Int)
(define-fun l0 () Bool (and tick m0))
(define-fun l1 () Bool (and tick m1))
(define-fun idle () Bool (and (not l0) (not l1)))
(define-fun filling () Bool (and l0 (not l1)))
(define-fun draining () Bool (and (not l0) l1))
(define-fun alarm () Bool (and l0 l1))
(define-fun go () Bool (and start (not (and tick started))))
(define-fun halt () Bool (and stop (not (and tick stopped))))
(define-fun stuck () Bool (and tick (>= pwait 5)))
(define-fun level () Int (ite tick (ite (and filling (<= plevel 97)) (+ plevel inflow) (ite (and draining (>= plevel 2)) (- plevel 2) plevel)) 0))
(define-fun alarmed () Bool (or fault stuck))
(define-fun starts () Bool (and idle go))
(define-fun drains () Bool (and filling (or halt (>= level 97))))
(define-fun rests () Bool (or (and draining (< level 2)) (and alarm halt)))
(define-fun n0 () Bool (or alarmed (and (not starts) (not drains) (not rests) l0) (and (not alarmed) starts)))
(define-fun n1 () Bool (or alarmed (and (not starts) (or drains (and (not rests) l1)))))
(define-fun fills () Bool (and n0 (not n1)))
(define-fun wait () Int (ite fills (ite tick (ite (< pn 5) (+ pn 1) 5) 0) 0))
(define-fun assumed () Bool (and (>= inflow 0) (<= inflow 3) (not (and start stop))))
(define-fun observer () Bool (and (>= level 0) (<= level 100) (<= wait 5) (or (not fills) (not alarm))))'''


class Document:
    def __init__(self, path):
        self.records = [r for r in csv.reader(open(path)) if r]
        self.at = 0
        self.diagrams = 0
        self.out = [HEAD]

    def next(self, word):
        record = self.records[self.at]
        assert record[0] == word, record
        self.at += 1
        return record[1:]

    def is_next(self, word):
        return self.records[self.at][0] == word

    def diagram(self, fields, following):
        """defines the diagram, over this state or the next one, and gives its name"""
        self.diagrams += 1
        names = ['false', 'true']
        fields = [int(f) for f in fields]
        for k in range(1, len(fields), 3):
            variable = BITS[self.bits[fields[k]]]
            if following:
                variable = NEXT[variable]
            name = 'd%d_%d' % (self.diagrams, len(names))
            self.out.append('(define-fun %s () Bool (ite %s %s %s))' % (name, variable, names[fields[k + 2]], names[fields[k + 1]]))
            names.append(name)
        return names[fields[0]]

    def rows(self, word):
        return [[int(f) for f in self.next('row')] for k in range(int(self.next(word)[0]))]

    def holds(self, rows, following):
        terms = []
        for bound, *coefficients in rows:
            terms.append('(<= (+ 0 %s) %d)' % (' '.join('(* %s %s)' % (number(c), self.columns[j][following]) for j, c in enumerate(coefficients)), bound)
                         if bound >= 0 else '(<= (+ 0 %s) (- %d))' % (' '.join('(* %s %s)' % (number(c), self.columns[j][following]) for j, c in enumerate(coefficients)), -bound))
        return '(and true %s)' % ' '.join(terms)

    def ask(self, *parts):
        self.out.append('(push 1) (assert (and %s)) (check-sat) (pop 1)' % ' '.join(parts))

    def read(self):
        self.next('reaver'), self.next('main')
        self.bits = self.next('bits')
        self.columns = [COLUMNS[c] for c in self.next('columns') if c in COLUMNS]
        locations = []
        for k in range(int(self.next('locations')[0])):
            control = self.next('control')
            entry, first, around, state = self.rows('entry'), self.rows('first'), self.rows('around'), self.rows('state')
            assert not first and not around
            for row in state:
                self.next('by')
            entries = []
            for j in range(int(self.next('cases')[0])):
                target = None
                if self.is_next('go'):
                    target = int(self.next('go')[0])
                else:
                    self.next('dead')
                when = self.next('when')
                while self.is_next('by'):
                    self.next('by')
                entries.append((target, when))
            locations.append((control, entry, state, entries))
        self.next('end')
        here = [self.diagram(control, False) for control, entry, state, entries in locations]
        there = [self.diagram(control, True) for control, entry, state, entries in locations]
        self.ask('(not tick)', *['(not %s)' % here[k] for k, l in enumerate(locations) if not l[1]])
        for k, (control, entry, state, entries) in enumerate(locations):
            whens = [self.diagram(when, False) for target, when in entries]
            self.ask(self.holds(entry, False), '(not %s)' % self.holds(state, False))
            self.ask(here[k], 'assumed', *['(not %s)' % w for w in whens])
            for (target, when), w in zip(entries, whens):
                scope = [here[k], self.holds(state, False), w, 'assumed']
                if target is None:
                    self.ask(*scope)
                else:
                    self.ask(*scope, '(not (and observer %s %s))' % (there[target], self.holds(locations[target][1], True)))
        return '\n'.join(self.out)


def number(c):
    return str(c) if c >= 0 else '(- %d)' % -c


if __name__ == '__main__':
    print(Document(sys.argv[1]).read())
