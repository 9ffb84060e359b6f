"""Specifications within the limits that ask for as much work, memory or stack as a text can."""
import collections
import functools

import colliding
import deepest

BYTES = 1 << 20

Text = collections.namedtuple('Text', 'name shows make')


def numbered(form):
    """Items of one form, each with its number in place of the sign #."""
    return lambda number: form.replace('#', str(number))


def members(count, form='p'):
    return ', '.join(form.replace('#', str(number)) for number in range(count))


def pair(number):
    """A definition that makes 43,000 nodes."""
    return 'h%d := foreach(v: s)(forsome(w: s)(F[0,%d](v)));\n' % (number, number)


def nested(number):
    return 'd%d := %sp%s;\n' % (number, '{' * 500, '}' * 500)


def full(head, item, tail):
    """As many items as 1 MiB holds between the head and the tail."""
    pieces, room, number = [head], BYTES - len(head) - len(tail), 0
    while len(piece := item(number)) <= room:
        pieces.append(piece)
        room -= len(piece)
        number += 1
    return ''.join(pieces + [tail])


def filled(name, shows, head, item, tail):
    return Text(name, shows, functools.partial(full, head, item, tail))


SIGNALS = 'INPUT p, q: bool; x: int;\n'
COUNTED = SIGNALS + 'STRUCT t: { a: bool; b: bool; };\nDEFINE s := {' + members(254) + '};\n'
DIVISORS = SIGNALS + 'DEFINE s := {' + members(90, '1#') + '};\n'
DEEPEST = 400
DEEP = SIGNALS + 'STRUCT t0: { f: bool; };\n' + ''.join(
    'STRUCT t%d: { f: t%d; };\n' % (k + 1, k) for k in range(DEEPEST)) + 'DEFINE d0 := t0(p);\n' + ''.join(
    'd%d := t%d(d%d);\n' % (k + 1, k + 1, k) for k in range(DEEPEST)) + 'u := {%s};\ns := {%s};\n' % (
    members(60, 'd%d' % DEEPEST), members(128, '#'))
PAIRED = SIGNALS + 'DEFINE s := {' + members(147) + '};\n'


def structs_within(fields, depth, definitions):
    """Definitions that pick through `depth` structs, each with `fields` members, in bodies that count for nothing."""
    names = ['f%c%c' % (97 + k // 26, 97 + k % 26) for k in range(fields - 1)]
    kinds = ['STRUCT t%d: { %s: bool; zz: %s; };\n' % (k, ','.join(names), 't%d' % (k - 1) if k else 'bool')
             for k in range(depth)]
    values = ['d%d := t%d(%s,%s);\n' % (k, k, ','.join(['p'] * (fields - 1)), 'd%d' % (k - 1) if k else 'p')
              for k in range(depth)]
    sets = 's := {%s};\nu := {%s};\n' % (members(500), members(43))
    body = 'foratleast(v: u, 0)(foratleast(w: s, 0)(d%d%s))' % (depth - 1, '.zz' * depth)
    users = ['e%d := %s;\n' % (k, body) for k in range(definitions)]
    return SIGNALS + ''.join(kinds) + 'DEFINE\n' + ''.join(values) + sets + ''.join(users) + 'FTSPEC p;\n'


def equivalences():
    """Definitions of 4,128,897 nodes, which are not used."""
    items = ['e%d := foreach(v: s)(F[0,%d] v%s);\n' % (k, k, '<->p' * 126) for k in range(127)]
    signals = 'INPUT p: bool; %s: bool;\n' % members(254, 'p#')
    return signals + 'DEFINE s := {' + members(254, 'p#') + '};\n' + ''.join(items)


def picked_within(levels):
    """One output of quantifiers within one another, each over the set that a picked field of the last variable holds."""
    kinds = 'STRUCT t0: { a: bool; };\n' + ''.join(
        'STRUCT t%d: { f: set<t%d>; };\n' % (k + 1, k) for k in range(levels))
    values = 'd0 := t0(p);\n' + ''.join('d%d := t%d({d%d, d%d});\n' % (k + 1, k + 1, k, k) for k in range(13))
    more = ''.join('d%d := t%d({d%d});\n' % (k + 1, k + 1, k) for k in range(13, levels))
    body = 'v%d.a' % levels
    for k in range(levels, 0, -1):
        body = 'foreach(v%d: v%d.f)(%s)' % (k, k - 1, body)
    return SIGNALS + kinds + 'DEFINE\n' + values + more + 'FTSPEC foreach(v0: {d%d})(%s);\n' % (levels, body)


def spacecraft(count, requirements):
    """Requirements over pairs of spacecraft, three levels of structs; one of them is used."""
    names = ['a%d' % k for k in range(count)]
    signals = ''.join('INPUT %s: bool;\n' % ', '.join('%s_%s' % (name, kind) for kind in ('near', 'safe', 'up'))
                      for name in names)
    kinds = ('STRUCT range_t: { near: bool; safe: bool; };\nSTRUCT state_t: { range: range_t; up: bool; };\n'
             'STRUCT craft_t: { state: state_t; };\n')
    values = ''.join('%s := craft_t(state_t(range_t(%s_near, %s_safe), %s_up));\n' % ((name,) * 4) for name in names)
    body = '(a.state.up && b.state.range.near) -> a.state.range.safe'
    rules = ''.join('apart%d := foreach(a: fleet)(forsome(b: fleet)(%s));\n' % (k, body) for k in range(requirements))
    return '%s%sDEFINE\n%sfleet := {%s};\n%sFTSPEC apart0;\n' % (signals, kinds, values, ', '.join(names), rules)


def valves(count, definitions):
    """Definitions that count over valves, one at each threshold."""
    rules = ''.join('most%d := foratmost(v: valves, %d)(v);\n' % (k, k % 120) for k in range(definitions))
    return 'INPUT %s: bool;\nDEFINE valves := {%s};\n%sFTSPEC most0;\n' % (
        members(count, 'v#'), members(count, 'v#'), rules)


def numeral(place):
    return str(3 * place + 1)


def sets_of_sets(sizes, count, member=numeral):
    """Sets of numbers, or of other members, of these sizes, and a set that holds `count` of them, in turn."""
    sets = ['s%d:={%s};\n' % (k, ', '.join(member(k + i) for i in range(size))) for k, size in enumerate(sizes)]
    return ''.join(sets) + 'z:={%s};\n' % ', '.join('s%d' % (k % len(sizes)) for k in range(count))


def variables(count):
    """So many names of variables: no operator, and nothing that a head declares."""
    letters = 'abcdefghijklmnouvwyzABCDEIJKLMNPQTVWXYZ'
    return [*letters, *(first + second for first in letters for second in 'abcd')][:count]


def passing(sets, body, others=0):
    """A body within quantifiers over these sets within one another, named after so many others; @ is the innermost variable."""
    names = variables(others + len(sets))[others:]
    head = ''.join('foreach(%s:%s)(' % pair for pair in zip(names, sets))
    return head + body.replace('@', names[-1]) + ')' * len(sets)


def over(sets, body):
    """A definition of quantifiers over these sets within one another; @ is the innermost variable."""
    return 'd#:=%s;\n' % passing(sets, body)


def chained_over(first, form, count):
    """A set, and after it so many of one form, in which @ is the variable before."""
    return [first] + [form.replace('@', name) for name in variables(count)]


PICKED = SIGNALS + 'STRUCT t: { a: bool; };\nDEFINE r:={t(p)};\n'
TWO = '{t(p),t(q)}'


def kinds(weights):
    """Formulas of so many weights, each with each of the tenses: all of them as a set, and those of less weight as another."""
    names, lines = [], []
    for k in range(weights):
        for tense, operator in enumerate(('', 'F[0,1]', 'O[0,1]', 'F[0,1]O[0,1]')):
            names.append('k%d_%d' % (k, tense))
            lines.append('%s:=%s(%sp);\n' % (names[-1], operator, '!' * k))
    sets = 's:={%s};\nr:={%s};\n' % (','.join(names), ','.join(names[:36]))
    return SIGNALS + 'STRUCT t: { a: bool; };\nDEFINE\nt0:=t(p);\n' + ''.join(lines) + sets


def within_one_another(variables):
    """Quantifiers over one set within one another, whose bodies compare the two innermost variables."""
    head = ''.join('foreach(%s:s)(' % name for name in variables)
    return 'a#:=%s%s<%s%s;\n' % (head, variables[-2], variables[-1], ')' * len(variables))


def output_picks():
    """One output, over so many numbers and structs as its weight lets be, whose bodies are chains of picked fields."""
    structs = ''.join('e%d := t%d(d%d);\n' % (k, DEEPEST, DEEPEST - 1) for k in range(160))
    sets = 'w := {%s};\nz := {%s};\n' % (members(160, 'e#'), members(200, '#'))
    return '%s%s%sFTSPEC foreach(n: z)(foreach(v: w)(v%s));\n' % (DEEP, structs, sets, '.f' * (DEEPEST + 1))


def declared(names):
    """Signals of these names, as many to an item as its tokens allow."""
    lists = (','.join(names[k:k + 500]) for k in range(0, len(names), 500))
    return 'INPUT\n' + ''.join('%s: bool;\n' % names for names in lists) + 'FTSPEC %s;\n' % names[0]


def constants(numbers):
    """Comparisons with these numbers, which outputs reach."""
    sums = ('FTSPEC x == %s;\n' % '+'.join(['x', *numbers[k:k + 400]]) for k in range(0, len(numbers), 400))
    return 'INPUT x: int;\n' + ''.join(sums)


TEXTS = [
    filled('gates', 'unused definitions that count', COUNTED + 'DEFINE\n',
           numbered('d# := forexactly(v: s, 127)(v);\n'), 'FTSPEC p;\n'),
    filled('pairs', 'unused definitions over pairs', PAIRED + 'DEFINE\n', pair, 'FTSPEC p;\n'),
    filled('divisor-pairs', 'the same, where the range of all numbers is no divisor, but each of them is', DIVISORS + 'DEFINE\n',
           numbered('a#:=foreach(v:s)(foreach(w:s)(x/v<x/w));\n'), 'FTSPEC p;\n'),
    filled('twos', 'unused definitions of 14 quantifiers over two numbers within one another',
           SIGNALS + 'DEFINE s := {1,2};\n', numbered(within_one_another('abcdefghijklmn')), 'FTSPEC p;\n'),
    filled('sets-of-sets', 'unused definitions over pairs of numbers from a set of sets of two and three',
           SIGNALS + 'DEFINE\n' + sets_of_sets((2, 3), 50),
           numbered('a#:=foreach(y:z)(foreach(v:y)(foreach(u:z)(foreach(w:u)(v<w))));\n'), 'FTSPEC p;\n'),
    filled('written-twice', '15 quantifiers over two structs that are written out, both of which hold the variable before',
           PICKED, numbered(over(chained_over(TWO, '{t(@.a),t(@.a)}', 14), '@.a')), 'FTSPEC p;\n'),
    Text('output-picks', 'such a chain in the 32,000 bodies of one output, in 25 KB', output_picks),
    Text('nested-picks', '23 quantifiers within one another over picked fields', lambda: picked_within(23)),
    Text('spacecraft', '27 requirements over pairs of 78 spacecraft', lambda: spacecraft(78, 27)),
    Text('valves', '400 definitions that count 250 valves', lambda: valves(250, 400)),
    filled('braces', 'sets within one another', SIGNALS + 'DEFINE\n', nested, 'FTSPEC p;\n'),
    filled('both', 'sets within one another, then definitions over pairs', PAIRED + 'DEFINE\n', nested,
           ''.join(map(pair, range(200))) + 'FTSPEC p;\n'),
    filled('chain', 'small definitions, each over the one before', SIGNALS + 'DEFINE d0 := p;\n',
           lambda number: 'd%d := d%d;\n' % (number + 1, number), 'FTSPEC p;\n'),
    filled('prefixes', 'definitions of 1,000 prefixes', SIGNALS + 'DEFINE\n',
           numbered('d# := ' + '!' * 1000 + 'p;\n'), 'FTSPEC p;\n'),
    filled('members', 'sets of 500 members', SIGNALS + 'DEFINE\n',
           numbered('d# := {' + members(500) + '};\n'), 'FTSPEC p;\n'),
    filled('sums', 'sums of numbers', SIGNALS + 'DEFINE\n', numbered('d# := 1' + '+1' * 500 + ';\n'), 'FTSPEC p;\n'),
    filled('structs', 'structs of one field', 'INPUT p: bool; STRUCT\n', numbered('t#: {a: bool;};\n'), 'FTSPEC p;\n'),
    filled('signals', 'signals', 'INPUT\n', numbered('signal_#: bool;\n'), 'FTSPEC signal_0;\n'),
    filled('labels', 'outputs', SIGNALS + 'FTSPEC\n', numbered('output_#: p;\n'), ''),
    filled('items', 'items of two bytes', SIGNALS + 'FTSPEC\n', numbered('p;'), ''),
    Text('small-picks', 'picked fields in bodies that count for nothing, in 84 KB', lambda: structs_within(100, 100, 50)),
    Text('iffs', 'equivalences in definitions that are not used, in 71 KB', lambda: equivalences() + 'FTSPEC p;\n'),
    Text('iffs-braces', 'the same, and sets within one another', lambda: full(equivalences(), nested, 'FTSPEC p;\n')),
    Text('colliding', '65,536 signals whose names collide', lambda: declared(colliding.names(65_536))),
    Text('constants', '32,000 numbers whose hashes would collide without a key', lambda: constants(colliding.numbers(32_000))),
] + [Text('deep-' + deep.name, deep.shows, lambda deep=deep: deep.text) for deep in deepest.TEXTS]
