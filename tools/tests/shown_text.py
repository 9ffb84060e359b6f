"""What `c2po --show` writes, as definitions."""

import re

from r2u2tools.common.program_text import Node, ProgramText, Requirement

SIGNAL = re.compile(r"INPUT (\w+): (bool|int);")
OUTPUT = re.compile(r"(FTSPEC|PTSPEC) (?:(\w+): )?(-?\w+)(?: => (-?\w+))?;")
DEFINED = re.compile(r"DEFINE (\w+) := (.*);")
UNARY = re.compile(r"([-!])(-?\w+)")
BINARY = re.compile(r"(-?\w+) (\+|-|\*|/|%|==|<=?|&&|[US])(?:\[(\d+),(\d+)\])? (-?\w+)")


def node_of(form):
    if found := UNARY.fullmatch(form):
        return Node(found[1], found[2])
    left, op, low, high, right = BINARY.fullmatch(form).groups()
    return Node(op, left, right, int(low or 0), int(high or 0))


def definitions(text):
    found = ProgramText()
    for line in text.splitlines():
        if it := DEFINED.fullmatch(line):
            found.nodes[it[1]] = node_of(it[2])
        elif it := SIGNAL.fullmatch(line):
            found.signals[it[1]] = it[2]
        else:
            section, name, left, right = OUTPUT.fullmatch(line).groups()
            found.outputs.append(Requirement(name or str(len(found.outputs)), section, left, right or ""))
    return found
