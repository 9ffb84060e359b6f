#!/usr/bin/env python3
"""Measures c2po and r2u2 over the inputs that ask for as much as the limits allow.

    bench/hostile.py build/c2po build/r2u2                   each text, and each program
    bench/hostile.py build/c2po build/r2u2 --only iffs       those of this name
    bench/hostile.py build/c2po build/r2u2 --plain           no options: c2po SPEC and r2u2 PROGRAM alone
    bench/hostile.py build/c2po build/r2u2 --stack           the least stack too, within 16 KiB, by runs with less and less
    bench/hostile.py build/c2po build/r2u2 --rows            a row for each input as bench/README.md has it: the most of its runs
    bench/hostile.py --list

Texts are compiled as they are, with --table, with --simplify, with a header, and run by r2u2 --source over an empty trace,
so up to the first row. Programs are run by r2u2 and written again by c2po --upgrade and, where the text of one fits, --show. A line has the seconds of
user time, the peak of memory and the code of a run. The bounds are 256 MB for a text and 768 MB for a
program, 2 MiB of stack, 1 second for a text as teams write it (spacecraft, valves), and 5 seconds for a program; the time
of other texts has no bound, but a run is stopped after --seconds of the processor. A run that is refused at once shows
nothing, and isn't counted.

The status is 0 if all runs are within the bounds, and 1 if one is past them, is stopped or isn't counted.
"""
import argparse
import collections
import os
import resource
import signal
import subprocess
import sys
import tempfile

import hostile_programs
import hostile_texts
from measure import measured

MOST_FOR_TEXTS, MOST_FOR_PROGRAMS = 256, 768
# The seconds of a program, and of texts as teams write them.
SECONDS_OF_PROGRAMS = 5
SECONDS_OF_TEXTS = {'spacecraft': 1, 'valves': 1}
STACK = 2048
# Beyond this a run is stopped, so that the machine stays usable; it is above both bounds.
ROOM = 8 << 30
DONE, REFUSED, OUT_OF_MEMORY = 0, (1, 2, 3, 4, 5), 8
AT_ONCE = 0.05

# The words of a run, the most MB, and the most seconds or none.
Run = collections.namedtuple('Run', 'words most seconds')


def limited(seconds, stack):
    """What a run's process takes on before it begins."""
    def take_on():
        resource.setrlimit(resource.RLIMIT_CPU, (seconds, seconds + 5))
        resource.setrlimit(resource.RLIMIT_AS, (ROOM, ROOM))
        resource.setrlimit(resource.RLIMIT_STACK, (stack << 10, stack << 10))
    return take_on


def taken_by(words, seconds, stack=STACK):
    quiet = dict(stdin=subprocess.DEVNULL, stdout=subprocess.DEVNULL, stderr=subprocess.DEVNULL)
    return measured(words, preexec_fn=limited(seconds, stack), **quiet)


def judged(taken, run):
    """Returns what is wrong with a run, or an empty text."""
    if taken.status in REFUSED and taken.user < AT_ONCE:
        return 'REFUSED AT ONCE'
    if taken.status == 128 + signal.SIGXCPU:
        return 'PAST THE LIMIT OF TIME'
    if taken.status not in (DONE, *REFUSED, OUT_OF_MEMORY):
        return 'ENDED BY A SIGNAL'
    past = [what for what, over in [('TIME', run.seconds and taken.user > run.seconds), ('MEMORY', taken.peak > run.most)] if over]
    return 'PAST ' + ' AND '.join(past) if past else ''


def least_stack(words, seconds):
    """The least stack in KiB with which a run ends as it does with much."""
    wanted = taken_by(words, seconds, STACK * 8).status
    low, high = 0, STACK * 8
    while high - low > 16:
        middle = (low + high) // 2
        if taken_by(words, seconds, middle).status == wanted:
            high = middle
        else:
            low = middle
    return high


def written(folder, name, content):
    path = os.path.join(folder, name)
    with open(path, 'wb') as file:
        file.write(content if isinstance(content, bytes) else content.encode())
    return path


def runs_of_text(asked, folder, path):
    """The runs over a text; the header names what the first signals of all texts are named, and is refused where others are asked."""
    made = [asked.compiler, '-o', os.path.join(folder, 'made')]
    words = [[*made, path]]
    if not asked.plain:
        empty = written(folder, 'empty', '')
        words += [[*made, option, path] for option in ('--table', '--simplify')]
        words.append([*made, '--header', written(folder, 'columns', '# p,q,x\n'), path])
        words.append([asked.monitor, '--source', path, empty])
    name = os.path.basename(path).removesuffix('.c2po')
    return [Run(each, MOST_FOR_TEXTS, SECONDS_OF_TEXTS.get(name)) for each in words]


def runs_of_program(asked, folder, it, path):
    trace = written(folder, 'trace', it.trace)
    runs = [Run([asked.monitor, *it.words, path, trace], MOST_FOR_PROGRAMS, SECONDS_OF_PROGRAMS)]
    if not asked.plain and not it.words:
        made = [asked.compiler, '-o', os.path.join(folder, 'made')]
        options = ('--upgrade', '--show') if it.shown else ('--upgrade',)
        runs += [Run([*made, option, path], MOST_FOR_PROGRAMS, SECONDS_OF_PROGRAMS) for option in options]
    return runs


def program_file(asked, folder, it):
    """The program in a file; a specification is compiled first, for the trace's header where it has one."""
    made = it.make()
    if isinstance(made, bytes):
        return written(folder, it.name + '.obs', made)
    path, source = os.path.join(folder, it.name + '.obs'), written(folder, it.name + '.c2po', made)
    if subprocess.run([asked.compiler, '-o', path, source]).returncode:
        sys.exit('%s is refused' % it.name)
    return path


def shown_words(words):
    """The words of a run without its files."""
    return ' '.join([os.path.basename(words[0]), *(word for word in words[1:] if word.startswith('--'))])


def row_of(it, takings):
    """The row of bench/README.md: an input, and the most seconds and MB of its runs."""
    most = [max(getattr(taken, what) for taken in takings) for what in ('user', 'peak')]
    return '| `%s` | %s | %.1f | %.0f |' % (it.name, it.shows, *most)


def show(asked, it, runs):
    """Measures and prints runs, and says whether one was past a bound."""
    past, takings = False, []
    for run in runs:
        words = run.words
        taken = taken_by(words, asked.seconds)
        said = judged(taken, run)
        past = past or bool(said)
        takings.append(taken)
        if asked.rows:
            continue
        stack = ' %6d' % least_stack(words, asked.seconds) if asked.stack else ''
        print('%-17s %-18s %8.2f %8.1f %6d%s  %s' % (
            it.name, shown_words(words), taken.user, taken.peak, taken.status, stack, said), flush=True)
    if asked.rows:
        print(row_of(it, takings), flush=True)
    return past


def measure_all(asked, folder):
    past = False
    for text in hostile_texts.TEXTS:
        if not asked.only or text.name in asked.only:
            path = written(folder, text.name + '.c2po', text.make())
            past = show(asked, text, runs_of_text(asked, folder, path)) or past
    for it in hostile_programs.PROGRAMS:
        if not asked.only or it.name in asked.only:
            path = program_file(asked, folder, it)
            past = show(asked, it, runs_of_program(asked, folder, it, path)) or past
    return past


def main():
    parser = argparse.ArgumentParser(description=__doc__, formatter_class=argparse.RawDescriptionHelpFormatter)
    parser.add_argument('compiler', nargs='?')
    parser.add_argument('monitor', nargs='?')
    parser.add_argument('--only', action='append', metavar='NAME')
    parser.add_argument('--plain', action='store_true')
    parser.add_argument('--stack', action='store_true')
    parser.add_argument('--rows', action='store_true')
    parser.add_argument('--list', action='store_true')
    parser.add_argument('--seconds', type=int, default=60)
    asked = parser.parse_args()
    known = {it.name: it.shows for it in hostile_texts.TEXTS + hostile_programs.PROGRAMS}
    if asked.list:
        print('\n'.join('%-17s %s' % it for it in known.items()))
        return 0
    if not asked.monitor or not set(asked.only or ()) <= set(known):
        parser.error('two programs are needed, and the names of --list')
    if not asked.rows:
        print('%-17s %-18s %8s %8s %6s%s' % ('input', 'run', 'user s', 'peak MB', 'code', '  stack' * asked.stack))
    with tempfile.TemporaryDirectory(prefix='hostile-') as folder:
        return 1 if measure_all(asked, folder) else 0


if __name__ == '__main__':
    sys.exit(main())
