"""The worked programs as Lustre sources and as constrained Horn clauses, for bench/spacer.sh.

`spacer.py FOLDER` writes NAME.lus and NAME.smt2 for each. The clauses are written by hand from the same equations: the state is what `pre`
and `current` remember, and whether an instant has been; a predicate holds of the states that are reached while the assertions hold."""
import sys


def one(variables, body):
    head = 'node m(a: bool) returns (ok: bool); '
    return head + ('var ' + variables + ' ' if variables else '') + 'let ' + body + ' tel\n'


# name, node, Lustre, memories with their types, inputs and flows with their types, equations of the flows, assumption, next memories, observer
COUNTER = '(ite began (ite (< m 10) (+ m 1) 0) 0)'
PROGRAMS = [
    ('tautology', 'm', one('', 'ok = a or not a;'), [], [('a', 'Bool')], [], 'true', [], '(or a (not a))'),
    ('true_ever_after', 'm', one('', 'ok = true -> pre ok;'), [('m', 'Bool')], [('ok', 'Bool')], ['(= ok (ite began m true))'], 'true', ['ok'], 'ok'),
    ('free_start', 'm', one('', 'ok = pre a;'), [('m', 'Bool')], [('a', 'Bool')], [], 'true', ['a'], 'm'),
    ('counter_to_ten', 'm', one('x: int;', 'x = 0 -> if pre x < 10 then pre x + 1 else 0; ok = x <= 10;'),
     [('m', 'Int')], [('x', 'Int')], ['(= x %s)' % COUNTER], 'true', ['x'], '(<= x 10)'),
    ('equal_counters', 'm', one('x, y: int;', 'x = 0 -> pre x + 1; y = 0 -> pre y + 1; ok = x = y;'),
     [('m', 'Int'), ('n', 'Int')], [('x', 'Int'), ('y', 'Int')], ['(= x (ite began (+ m 1) 0))', '(= y (ite began (+ n 1) 0))'], 'true', ['x', 'y'], '(= x y)'),
    ('double_step', 'm', one('x, y: int;', 'x = 0 -> if a and pre x < 1000 then pre x + 1 else pre x; y = 0 -> if a and pre x < 1000 then pre y + 2 else pre y; '
     'ok = y <= 2000;'), [('m', 'Int'), ('n', 'Int')], [('a', 'Bool'), ('x', 'Int'), ('y', 'Int')],
     ['(= x (ite began (ite (and a (< m 1000)) (+ m 1) m) 0))', '(= y (ite began (ite (and a (< m 1000)) (+ n 2) n) 0))'], 'true', ['x', 'y'], '(<= y 2000)'),
    ('false_assertion', 'm', one('', 'assert false; ok = false;'), [], [('a', 'Bool')], [], 'false', [], 'false'),
    ('pre_breaks_the_cycle', 'm', one('x, y: int;', 'x = 0 -> pre y; y = x + 1; ok = y > x;'),
     [('m', 'Int')], [('x', 'Int'), ('y', 'Int')], ['(= x (ite began m 0))', '(= y (+ x 1))'], 'true', ['y'], '(> y x)'),
    ('widest_literal', 'm', one('z: int;', 'z = 1099511627776; ok = true;'), [], [('z', 'Int')], ['(= z 1099511627776)'], 'true', [], 'true'),
    ('input_below_a_hundred', 'm', 'node m(i: int) returns (ok: bool); let ok = i < 100; tel\n', [], [('i', 'Int')], [], 'true', [], '(< i 100)'),
    ('current_before_the_first', 'm', 'node m(c: bool) returns (ok: bool); let ok = current (0 when c) = 0; tel\n',
     [('m', 'Int')], [('c', 'Bool'), ('v', 'Int')], ['(= v (ite c 0 m))'], 'true', ['v'], '(= v 0)'),
    ('three_labels', 'm', 'type t = enum { p, q, r }; node m(s: t) returns (ok: bool); let ok = s = p or s = q or s = r; tel\n',
     [], [('s', 'Int')], ['(<= 0 s 2)'], 'true', [], '(or (= s 0) (= s 1) (= s 2))'),
    ('one_label', 'm', 'type u = enum { U }; node m(a: u) returns (ok: bool); let ok = false -> true; tel\n', [], [('ok', 'Bool')], ['(= ok began)'], 'true', [], 'ok'),
    ('doubling', 'm', one('x: int;', 'x = 0 -> pre x + pre x + 1; ok = x >= 0;'), [('m', 'Int')], [('x', 'Int')], ['(= x (ite began (+ m m 1) 0))'], 'true', ['x'], '(>= x 0)'),
    ('parity', 'm', one('x: int;', 'x = 0 -> pre x + 2; ok = x <> 7;'), [('m', 'Int')], [('x', 'Int')], ['(= x (ite began (+ m 2) 0))'], 'true', ['x'], '(not (= x 7))'),
    ('clocked_counter', 'main', '''node count(b: bool) returns (n: int);
var p: int;
let
  p = 0 -> pre n;
  n = if b then p + 1 else p;
tel
node main(a, c: bool) returns (ok: bool);
var k: int when c; t, s: int; seen: bool;
let
  k = count(a when c);
  s = 0 -> pre t;
  t = if c then s + 1 else s;
  seen = c or (false -> pre seen);
  ok = seen => current k <= t;
tel
''', [('pn', 'Int'), ('mk', 'Int'), ('pt', 'Int'), ('ticked', 'Bool'), ('pseen', 'Bool')],
     [('a', 'Bool'), ('c', 'Bool'), ('p', 'Int'), ('n', 'Int'), ('k', 'Int'), ('t', 'Int'), ('seen', 'Bool')],
     ['(= p (ite ticked pn 0))', '(= n (ite a (+ p 1) p))', '(= k (ite c n mk))', '(= t (+ (ite began pt 0) (ite c 1 0)))', '(= seen (or c (and began pseen)))'], 'true',
     ['(ite c n pn)', 'k', 't', '(or ticked c)', 'seen'], '(=> seen (<= k t))'),
]
# the modes of the pump station are 0 Idle, 1 Filling, 2 Draining, 3 Alarm
PUMP = ('pump_station', 'main', None,
    [('pm', 'Int'), ('plevel', 'Int'), ('pwait', 'Int'), ('ptimer', 'Int'), ('pstart', 'Bool'), ('pstop', 'Bool')],
    [('start', 'Bool'), ('stop', 'Bool'), ('fault', 'Bool'), ('inflow', 'Int'), ('go', 'Bool'), ('halt', 'Bool'), ('last', 'Int'), ('stuck', 'Bool'),
     ('level', 'Int'), ('m', 'Int'), ('wait', 'Int')],
    ['(= go (and start (not (and began pstart))))', '(= halt (and stop (not (and began pstop))))', '(= last (ite began pm 0))',
     '(= stuck (and began (>= pwait 5)))',
     '(= level (ite began (ite (and (= last 1) (<= plevel 97)) (+ plevel inflow) (ite (and (= last 2) (>= plevel 2)) (- plevel 2) plevel)) 0))',
     '(= m (ite (or fault stuck) 3 (ite (and (= last 0) go) 1 (ite (and (= last 1) (or halt (>= level 97))) 2 (ite (and (= last 2) (< level 2)) 0 '
     '(ite (and (= last 3) halt) 0 last))))))',
     '(= wait (ite (= m 1) (ite began (ite (< ptimer 5) (+ ptimer 1) 5) 0) 0))'],
    '(and (>= inflow 0) (<= inflow 3) (not (and start stop)))', ['m', 'level', 'wait', 'wait', 'start', 'stop'],
    '(and (>= level 0) (<= level 100) (<= wait 5) (or (not (= m 1)) (not (= last 3))))')


def clauses(program):
    name, node, lustre, memories, flows, equations, assumption, following, observer = program
    state = [('began', 'Bool')] + memories
    if name == 'pump_station':
        ranges = ' (<= 0 pm 3)'
    else:
        ranges = ''
    declared = ' '.join('(%s %s)' % v for v in state + flows)
    names = ' '.join(v for v, kind in state)
    free = ' '.join('(%s %s)' % v for v in memories)
    step = '(and (Reached %s) %s %s)' % (names, ' '.join(equations), assumption)
    out = ['(set-logic HORN)', '(declare-fun Reached (%s) Bool)' % ' '.join(kind for v, kind in state)]
    # at the start no clock has ticked, and each memory holds any value of its type
    start = '(Reached false%s)' % ''.join(' ' + ('false' if v == 'ticked' else v) for v, kind in memories)
    if not memories:
        out.append('(assert (Reached false))')
    else:
        out.append('(assert (forall (%s) (=> (and true%s) %s)))' % (free, ranges, start))
    out.append('(assert (forall (%s) (=> %s (Reached true %s))))' % (declared, step, ' '.join(following)))
    out.append('(assert (forall (%s) (=> (and %s (not %s)) false)))' % (declared, step, observer))
    out.append('(check-sat)')
    return '\n'.join(out).replace(' )', ')') + '\n'


if __name__ == '__main__':
    folder, examples = sys.argv[1], sys.argv[2]
    for program in PROGRAMS + [PUMP]:
        name, node, lustre = program[:3]
        if lustre is None:
            lustre = open(examples + '/' + name + '.lus').read()
        open('%s/%s.lus' % (folder, name), 'w').write(lustre)
        open('%s/%s.smt2' % (folder, name), 'w').write(clauses(program))
        print(name, node)
