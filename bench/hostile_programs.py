"""Observer programs and traces within the limits that ask for as much work or memory as they can."""
import collections
import struct

import colliding

BYTES = 16 << 20
WIDTH = 65_536

Program = collections.namedtuple('Program', 'name shows make trace words shown')


def instruction(opcode, left=0, right=0, low=0, high=0, size=0):
    return struct.pack('<B3x5I', opcode, left, right, low, high, size)


def output(name, number):
    return struct.pack('<B3x5I', 0x30, number, 0, len(name), 0, 0)


def program(bz=(), ft=(), outputs=(), signals=(), width=0):
    """The bytes of version 2: instructions as bytes, outputs as names, which all report instruction 0, and signals as names."""
    names, known = ''.join(outputs).encode(), ''.join(signals).encode()
    head = b'MLTL' + struct.pack('<HH8I', 2, 0, width, len(bz), len(ft), 0, len(outputs), len(names), len(signals), len(known))
    entries = [struct.pack('<IBBH', column, 1, len(name), 0) for column, name in enumerate(signals)]
    return b''.join([head, *bz, *ft, *(output(name, 0) for name in outputs), *entries, names, known])


def of_outputs():
    return program(ft=[instruction(0x10, size=1)], outputs=['f'] * ((BYTES - 64) // 25))


def of_numbers():
    """A number, and denials of a number, each of the one before."""
    count = (BYTES - 40) // 24
    first = struct.pack('<B7xqII', 0x03, 1, 0, 0)
    return program(bz=[first] + [instruction(0x04, left=k) for k in range(count - 1)])


def of_denials():
    count = (BYTES - 40) // 24
    return program(ft=[instruction(0x10, size=1)] + [instruction(0x12, left=k, size=1) for k in range(count - 1)])


def of_signals(names):
    return lambda: program(signals=names(), width=WIDTH)


def long_names():
    return ['%064d' % number for number in range(WIDTH)]


def colliding_names():
    return colliding.names(WIDTH)


def windows():
    """A specification whose queues and those of its signals have 16,777,216 slots together."""
    names = ['p%d' % k for k in range(16)]
    spans = [1_048_576] * 15 + [1_048_543]
    outputs = ''.join('FTSPEC F[0,%d] %s;\n' % it for it in zip(spans, names))
    return 'INPUT %s: bool;\n%s' % (', '.join(names), outputs)


def columns(count):
    return ','.join('c%d' % k for k in range(count))


# A header and a row of 65,535 bytes, with as many columns as they hold.
COLUMNS = 10_900
HEADER = ('# ' + columns(COLUMNS)).ljust(65_534) + '\n'
ROW = ','.join(['1'] * 32_767) + '\n'
WIDE = 'INPUT\n' + ''.join('c%d: bool;\n' % k for k in range(COLUMNS)) + 'FTSPEC c0;\n'
PLAIN = 'INPUT p: bool;\nFTSPEC f: p;\n'

# `make` gives the bytes of a program, or the text of a specification, which c2po compiles before; `shown` says whether the
# program's text is within its limit.
PROGRAMS = [
    Program('program-outputs', '16 MiB of outputs', of_outputs, '', [], False),
    Program('program-numbers', '16 MiB of instructions of the Booleanizer', of_numbers, '', [], False),
    Program('program-denials', '16 MiB of instructions of future time', of_denials, '', [], False),
    Program('program-signals', '65,536 signals with names of 64 digits', of_signals(long_names), '', [], False),
    Program('program-colliding', '65,536 signals whose names collide', of_signals(colliding_names), '', [], False),
    Program('most-slots', '16,777,216 slots', windows, '', [], True),
    Program('long-header', 'a header of 65,535 bytes', lambda: WIDE, HEADER, [], True),
    Program('long-row', 'a row of 65,534 bytes', lambda: PLAIN, ROW, [], True),
    Program('long-gap', 'a gap of 16,777,215 rows between two stamps', lambda: PLAIN, '@0,1\n@16777215,1\n', ['--timed'], True),
]
