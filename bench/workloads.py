"""The six workloads: specifications, and traces that are the same bytes each time."""
import os
import random

COUNT = 500000


class Workload:
    """A name, what it shows, a specification, and its rows."""

    def __init__(self, name, shows, spec, rows, make):
        self.name, self.shows, self.spec, self.rows, self.make = name, shows, spec, rows, make

    def write(self, folder):
        """Writes the specification and the trace into a folder, and gives their paths."""
        spec, trace = (os.path.join(folder, self.name + end) for end in ('.c2po', '.csv'))
        with open(spec, 'w') as file:
            file.write(self.spec)
        with open(trace, 'w') as file:
            file.writelines(','.join(map(str, row)) + '\n' for row in self.make(random.Random(7), self.rows))
        return spec, trace


def valves(_, count):
    for k in range(count):
        v = ((k % 65536) ** 2 * 7 + k % 999 * 13 + 217) % 1000
        yield int(v % 3 == 0), int(v % 5 < 2), v - 500


def rare_changes(dice, count):
    p = q = 0
    for _ in range(count):
        p ^= dice.random() < 0.001
        q ^= dice.random() < 0.0005
        yield int(p), int(q)


def truths(*chances):
    def make(dice, count):
        for _ in range(count):
            yield [int(dice.random() < chance) for chance in chances]
    return make


def many_signals(dice, count):
    for _ in range(count):
        yield [dice.randint(0, 1) for _ in range(40)] + [dice.randint(-100, 100) for _ in range(20)]


def wide(dice, count):
    some = [[dice.randint(-9999, 9999) for _ in range(1000)] for _ in range(200)]
    for k in range(count):
        yield some[k % 200]


def many_outputs():
    """300 requirements over 40 truths and 20 numbers."""
    dice, lines = random.Random(11), []
    truth, number, most = (lambda: 'p%d' % dice.randrange(40)), (lambda: 'x%d' % dice.randrange(20)), (lambda: dice.randint(1, 30))
    for k in range(300):
        form = dice.choice((
            lambda: 'G[0,%d] (%s -> %s)' % (most(), truth(), truth()),
            lambda: '%s -> F[0,%d] %s' % (truth(), most(), truth()),
            lambda: '%s && %s U[1,%d] (%s < 5)' % (truth(), truth(), most(), number()),
        ))
        lines.append('  r%d: %s;' % (k, form()))
    names = lambda letter, count: ', '.join('%s%d' % (letter, k) for k in range(count))
    return 'INPUT %s: bool; %s: int;\nFTSPEC\n%s\n' % (names('p', 40), names('x', 20), '\n'.join(lines))


ALL = [
    Workload('few', '4 outputs, many rows', '''INPUT a, b: bool; x: int;
FTSPEC resp: a -> F[0,3] b; low: G[0,2] (x < 0); agc: a => F[0,1] b;
PTSPEC once: O[0,4] a;
''', 2 * COUNT, valves),
    Workload('long', 'intervals to 100,000', '''INPUT p, q: bool;
FTSPEC f: F[0,100000] p; g: G[10,50000] q; u: q U[0,100000] p; n: G[0,1000] (p -> F[0,10000] q);
PTSPEC s: q S[0,100000] p; o: O[5,100000] p;
''', COUNT, rare_changes),
    Workload('outputs', '300 outputs', many_outputs(), 20000, many_signals),
    Workload('wide', 'rows of 1,000 columns', '''INPUT
%s
FTSPEC f: c3 < c900; g: F[0,5] (c500 == 3);
''' % '\n'.join('  %s: int;' % ', '.join('c%d' % (k + n) for n in range(250)) for k in range(0, 1000, 250)), 20000, wide),
    Workload('past', 'past time', '''INPUT p, q: bool;
PTSPEC a: O[10,20] p; b: H[3,1000] q; c: p S[2,50] q; d: O[0,5] H[0,7] p; e: (p S[0,9] q) S[1,4] p;
''', COUNT, truths(0.5, 0.5)),
    Workload('nested', 'nested until', '''INPUT p, q, r: bool;
FTSPEC a: p U[0,20] q; b: (p U[3,9] q) U[0,30] r; c: G[0,100](p -> F[0,10] (q && F[0,5] r)); d: p R[2,40] q;
''', COUNT, truths(0.9, 0.1, 0.2)),
]
