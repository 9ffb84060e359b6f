"""The texts that nest as deeply as the limits allow, for the stack that the programs need."""
import collections

Deep = collections.namedtuple('Deep', 'name shows text row')


def outputs(expression, signals='p: bool', before=''):
    return 'INPUT %s;\n%sFTSPEC %s;\n' % (signals, before, expression)


def chain():
    """Definitions of 1,000 prefixes, each over the one before, to the greatest weight."""
    items = ['d%d := %s%s;\n' % (k, '!' * 1000, 'd%d' % (k - 1) if k else 'p') for k in range(65)]
    return outputs('d64', before='DEFINE\n' + ''.join(items))


def quantifiers(word, tail, count):
    heads = ''.join('%s(v%d: s%s)(' % (word, k, tail) for k in range(count))
    return outputs(heads + 'p' + ')' * count, before='DEFINE s := {p};\n')


TEXTS = [
    Deep('prefixes', '1,020 prefixes', outputs('!' * 1020 + 'p'), '1\n'),
    Deep('minuses', '1,020 minus signs', outputs('-' * 1020 + 'x == 0', 'x: int'), '1\n'),
    Deep('operands', '511 operands of &&', outputs(' && '.join(['p'] * 511)), '1\n'),
    Deep('arrows', '511 operands of ->', outputs(' -> '.join(['p'] * 511)), '1\n'),
    Deep('windows', '170 windows', outputs('F[0,1] ' * 170 + 'p'), '1\n'),
    Deep('untils', '146 times until', outputs(' U[0,1] '.join(['p'] * 146)), '1\n'),
    Deep('brackets', '509 round brackets', outputs('(' * 509 + 'p' + ')' * 509), '1\n'),
    Deep('sums', '500 sums', outputs('+'.join(['x'] * 501) + ' == 0', 'x: int'), '1\n'),
    Deep('quantifiers', '100 quantifiers', quantifiers('foreach', '', 100), '1\n'),
    Deep('counting', '90 counting quantifiers', quantifiers('foratleast', '', 90).replace(')(', ', 1)('), '1\n'),
    Deep('braces', '500 sets within one another',
         'INPUT p: bool;\nDEFINE d := %sp%s;\nFTSPEC p;\n' % ('{' * 500, '}' * 500), '1\n'),
    Deep('chain', '65 definitions of 1,000 prefixes, each over the one before', chain(), '1\n'),
]
