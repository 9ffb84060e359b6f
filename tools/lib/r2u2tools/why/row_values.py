"""Integers for the signals of one row by which its comparisons come out as they are asked for, or that there are none.

A comparison says of a sum that it is 0, isn't, or is at most 0. A quotient is a further variable, which a remainder ties to
what is divided. A product of variables is one too: it lies between planes at the ends of its factors' ranges, which are cut
until it fits.
"""

from __future__ import annotations

from dataclasses import dataclass, field
from operator import add, eq, le, lt, mul, sub
from random import Random
from typing import Callable, Iterator, Mapping, Optional

from r2u2tools.common.program_text import Node, ProgramText
from r2u2tools.why.omega import NUMBER, Omega, Sum, Unknown, Values, added, value_of
from r2u2tools.why.part_verdicts import TRUE

LEAST, GREATEST = -(1 << 31), (1 << 31) - 1
MOST_STEPS, MOST_CUTS, TRIALS = 3000, 80, 100
TIMES = "*"
Range = tuple[int, int]


def quotient(value: int, by: int) -> int:
    """A quotient as the language has it, cut toward zero."""
    return abs(value) // abs(by) * (1 if (value < 0) == (by < 0) else -1)


@dataclass
class Demands:
    """What is asked of a row: sums that are 0, at most 0, or not 0, and of some others one of several demands."""

    zero: list[Sum] = field(default_factory=list)
    below: list[Sum] = field(default_factory=list)
    other: list[Sum] = field(default_factory=list)
    one_of: list[list[list[Sum]]] = field(default_factory=list)


class Row:
    """The comparisons of one row as sums, over signals of which some have values."""

    def __init__(self, shown: ProgramText, fixed: Mapping[str, int]) -> None:
        self.shown, self.fixed, self.demands = shown, fixed, Demands()
        self.ranges: dict[str, Range] = {}
        self.sums: dict[str, Sum] = {}

    def ask(self, ref: str, word: int) -> None:
        """Asks that a comparison has a word."""
        node = self.shown.nodes[ref]
        total = added(self.sum_of(node.left), 1, self.sum_of(node.right), -1)
        if node.op == "==":
            (self.demands.zero if word == TRUE else self.demands.other).append(total)
        elif word == TRUE:
            self.demands.below.append(added(total, 1, {NUMBER: int(node.op == "<")}, 1))
        else:
            self.demands.below.append(added(total, -1, {NUMBER: int(node.op == "<=")}, 1))

    def sum_of(self, ref: str) -> Sum:
        if ref not in self.sums:
            self.sums[ref] = self.new_sum(ref, self.shown.nodes.get(ref))
        return self.sums[ref]

    def new_sum(self, ref: str, node: Optional[Node]) -> Sum:
        if node is None:
            if ref in self.fixed or ref.lstrip("-").isdigit():
                return added({NUMBER: self.fixed[ref] if ref in self.fixed else int(ref)}, 1, {}, 0)
            self.ranges[ref] = LEAST, GREATEST
            return {ref: 1}
        if not node.right:
            return added(self.sum_of(node.left), -1, {}, 0)
        left, right = self.sum_of(node.left), self.sum_of(node.right)
        if node.op in "+-":
            return added(left, 1, right, 1 if node.op == "+" else -1)
        return self.product(left, right) if node.op == "*" else self.divided(node, left, right)

    def product(self, left: Sum, right: Sum) -> Sum:
        found: Sum = {}
        for one, count in left.items():
            for other, more in right.items():
                found = added(found, 1, {self.joint(one, other): 1}, count * more)
        return found

    def joint(self, one: str, other: str) -> str:
        """The variable that is the product of two; its factors are in order, so that equal products are one."""
        factors = sorted(name for it in (one, other) if it for name in it.split(TIMES))
        for k in range(2, len(factors) + 1):
            ends = [a * b for a in self.ranges[TIMES.join(factors[: k - 1])] for b in self.ranges[factors[k - 1]]]
            self.ranges[TIMES.join(factors[:k])] = min(ends), max(ends)
        return TIMES.join(factors)

    def divided(self, node: Node, left: Sum, right: Sum) -> Sum:
        """A quotient or a remainder; the remainder has the sign of what is divided."""
        by = right.get(NUMBER, 0)
        if right != {NUMBER: by}:
            raise Unknown
        if not left or left.keys() == {NUMBER}:
            value = quotient(left.get(NUMBER, 0), by)
            return added({NUMBER: value if node.op == "/" else left.get(NUMBER, 0) - value * by}, 1, {}, 0)
        name = f"{sorted(left.items())}/{by}".replace(TIMES, "&")
        low, high = self.range_of(left)
        self.ranges[name] = -max(abs(low), abs(high)), max(abs(low), abs(high))
        rest, room = added(left, 1, {name: 1}, -by), {NUMBER: 1 - abs(by)}
        self.demands.one_of.append([
            [added(left, -1, {}, 0), added(rest, -1, {}, 0), added(rest, 1, room, 1)],
            [added(left, 1, {NUMBER: 1}, 1), rest, added(rest, -1, room, 1)],
        ])
        return {name: 1} if node.op == "/" else rest

    def range_of(self, total: Sum) -> Range:
        ends = [sorted(end * count for end in self.ranges[name]) for name, count in total.items() if name]
        number = total.get(NUMBER, 0)
        return number + sum(low for low, _ in ends), number + sum(high for _, high in ends)


class Search:
    """Searches values of the variables of a row."""

    def __init__(self, row: Row) -> None:
        self.row, self.omega, self.cuts = row, Omega(MOST_STEPS), MOST_CUTS

    def found(self) -> Optional[Values]:
        """Values that fulfil all demands; None where there are none."""
        return self.chosen([], self.row.demands.one_of)

    def chosen(self, below: list[Sum], left: list[list[list[Sum]]]) -> Optional[Values]:
        """Takes one of the demands of which one is enough, then another one."""
        if not left:
            return self.unequal(below, self.row.demands.other)
        for more in left[0]:
            values = self.chosen(below + more, left[1:])
            if values is not None:
                return values
        return None

    def unequal(self, below: list[Sum], other: list[Sum]) -> Optional[Values]:
        """Where a sum is 0 that mustn't be, tries it below and above."""
        values = self.within(below, self.row.ranges)
        if values is None:
            return None
        bad = next((total for total in other if not value_of(total, values)), None)
        if bad is None:
            return values
        for sign in (1, -1):
            values = self.unequal([*below, added(bad, sign, {NUMBER: 1}, 1)], [it for it in other if it is not bad])
            if values is not None:
                return values
        return None

    def within(self, below: list[Sum], ranges: Mapping[str, Range]) -> Optional[Values]:
        """Cuts the range of a factor where a product doesn't fit."""
        values = self.omega.solved(self.row.demands.zero, [*self.row.demands.below, *below, *self.bounds(ranges)])
        if values is None:
            return None
        values = {name: values.get(name, 0) for name in ranges}
        bad = next((name for name in ranges if TIMES in name and not fits(name, values)), None)
        if bad is None:
            return values
        self.cuts -= 1
        if self.cuts < 0:
            raise Unknown
        name = max(factors_of(bad), key=lambda it: ranges[it][1] - ranges[it][0])
        (low, high), at = ranges[name], values[name]
        for cut in ((at, at), (low, at - 1), (at + 1, high)):
            if cut[0] <= cut[1]:
                found = self.within(below, {**ranges, name: cut})
                if found is not None:
                    return found
        return None

    def bounds(self, ranges: Mapping[str, Range]) -> Iterator[Sum]:
        """The ends of the ranges, and of each product the planes between which it lies."""
        for name, (low, high) in ranges.items():
            yield {name: 1, NUMBER: -high}
            yield {name: -1, NUMBER: low}
            if TIMES in name:
                one, other = factors_of(name)
                for a, b, sign in zip(ranges[one] * 2, ranges[other] + ranges[other][::-1], (-1, -1, 1, 1)):
                    plane = added(added({one: b}, 1, {other: a}, 1), 1, {NUMBER: -a * b}, 1)
                    yield added({name: 1}, sign, plane, -sign)


def factors_of(name: str) -> tuple[str, str]:
    one, _, other = name.rpartition(TIMES)
    return one, other


def fits(name: str, values: Values) -> bool:
    """Whether a product is that of its factors."""
    one, other = factors_of(name)
    return values[name] == values[one] * values[other]


def row_values(shown: ProgramText, words: Mapping[str, int], fixed: Mapping[str, int]) -> Optional[Values]:
    """Values of the signals that comparisons read, by which these have some words; None where there are none.

    Raises Unknown where neither is found within the steps that are tried. That there are none is believed when values at
    random fulfil them neither.
    """
    row = Row(shown, fixed)
    for ref, word in words.items():
        row.ask(ref, word)
    found = Search(row).found()
    if found is None:
        return at_random(shown, words, fixed)
    return {name: value for name, value in found.items() if name in shown.signals}


def at_random(shown: ProgramText, words: Mapping[str, int], fixed: Mapping[str, int]) -> Optional[Values]:
    """Values near the constants of some comparisons by which these have their words; None when no trial has."""
    below, dice = shown.below(*words), Random(len(words))
    near = {int(ref) + k for ref in below if ref.lstrip("-").isdigit() for k in (-1, 0, 1)} | {*range(-9, 10)}
    choice = sorted(value for value in near if LEAST <= value <= GREATEST)
    names = [name for name in shown.signals if name in below and name not in fixed]
    for _ in range(TRIALS if names else 1):
        values = {name: dice.choice(choice) for name in names}
        if all(computed(shown, ref, {**values, **fixed}) == word for ref, word in words.items()):
            return values
    return None


SIGNS: dict[str, Callable[[int, int], int]] = {
    "+": add, "-": sub, "*": mul, "/": quotient, "%": lambda one, by: one - by * quotient(one, by), "==": eq, "<": lt, "<=": le,
}


def computed(shown: ProgramText, ref: str, values: Mapping[str, int]) -> int:
    """What a number or a comparison is over the values of signals."""
    node = shown.nodes.get(ref)
    if node is None:
        return values[ref] if ref in values else int(ref)
    sides = [computed(shown, operand, values) for operand in node.operands()]
    return int(SIGNS[node.op](*sides)) if node.right else -sides[0]
