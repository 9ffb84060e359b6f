"""Specifications and rows at random, for monitors in C: the same for a number each time."""

from __future__ import annotations

from random import Random
from typing import Callable, Dict, List

TRUTHS, NUMBERS = "pqrs", "xyz"
EDGES = (0, 1, 2, 3, 7, 31, 32, 33, 62, 63, 64, 65)
ENDS = (-(1 << 31), (1 << 31) - 1, -(1 << 31) + 1, -1, 0, 1)
INPUTS = "INPUT p, q, r, s: bool; x, y, z: int;\n"


class Specs:
    """A maker of one specification: windows are mostly short, and now and then long."""

    def __init__(self, dice: Random) -> None:
        self.dice = dice
        self.longest = dice.choice((3, 3, 8, 20, 20, 40, 70, 70, 200, 700, 1 << 20))

    def window(self) -> str:
        dice = self.dice
        if dice.random() < 0.25:
            ends = [it for it in EDGES if it <= self.longest]
            low, high = sorted((dice.choice(ends), dice.choice(ends)))
        elif dice.random() < 0.3:
            low, high = sorted(dice.randint(0, self.longest) for _ in range(2))
        else:
            low, high = 0, dice.randint(0, min(self.longest, dice.choice((3, 30, 1 << 20))))
        return f"[{low},{high}]"

    def number(self, depth: int = 2) -> str:
        dice = self.dice
        if depth == 0 or dice.random() < 0.4:
            return dice.choice((*NUMBERS, *NUMBERS, str(dice.randint(0, 3)), "2147483647", "(-2147483648)"))
        kind, inner = dice.random(), self.number(depth - 1)
        if kind < 0.15:
            return f"(-{inner})"
        if kind < 0.4:
            return f"({inner} {dice.choice('/%')} {dice.choice(('1', '2', '3', '7', '(-1)', '(-2)', '2147483648'))})"
        return f"({inner} {dice.choice('+-+-*')} {self.number(depth - 1)})"

    def atom(self) -> str:
        dice = self.dice
        if dice.random() < 0.75:
            return dice.choice(TRUTHS)
        if dice.random() < 0.1:
            return dice.choice(("true", "false"))
        return f"({self.number()} {dice.choice(('==', '!=', '<', '<=', '>', '>='))} {self.number()})"

    def formula(self, depth: int, is_past: bool) -> str:
        """A formula with at most `depth` operators in one another."""
        dice = self.dice
        if depth == 0 or dice.random() < 0.08:
            return self.atom()
        one = self.formula(depth - 1, is_past)
        kind = dice.random()
        if kind < 0.1:
            return f"!({one})"
        if kind < 0.6 and depth > 1 and kind >= 0.35 or kind < 0.3:
            return f"({one}) {dice.choice(('&&', '||', '->', '<->'))} ({self.formula(depth - 1, is_past)})"
        if kind < 0.75:
            return f"{dice.choice('OH' if is_past else 'FG')}{self.window()} ({one})"
        other = self.formula(depth - 1, is_past)
        return f"({one}) {'S' if is_past else dice.choice('UUR')}{self.window()} ({other})"

    def output(self) -> str:
        dice = self.dice
        is_past, depth = dice.random() < 0.3, dice.choice((1, 2, 2, 3, 3, 4))
        body = self.formula(depth, is_past)
        if dice.random() < 0.2:
            body += f" => {self.formula(dice.choice((0, 1, 2)), is_past)}"
        return f"{'PTSPEC' if is_past else 'FTSPEC'} {body};"

    def text(self) -> str:
        return INPUTS + "".join(f"{self.output()}\n" for _ in range(self.dice.choice((1, 1, 2, 3, 6))))


def walks(dice: Random, count: int) -> List[int]:
    """A Boolean that changes often or seldom, and is true often or seldom."""
    rate, share = dice.choice((1, 0.5, 0.1, 0.02, 0.003)), dice.choice((0.5, 0.5, 0.1, 0.9, 0.01, 0.99))
    value, found = int(dice.random() < share), []
    for _ in range(count):
        if dice.random() < rate:
            value = int(dice.random() < share)
        found.append(value)
    return found


def numbers(dice: Random, count: int) -> List[int]:
    """An integer that is small, any, or at the ends of 32 bits."""
    makers: Dict[int, Callable[[], int]] = {
        0: lambda: dice.randint(-3, 3),
        1: lambda: dice.choice(ENDS),
        2: lambda: dice.randint(-(1 << 31), (1 << 31) - 1),
    }
    hold, found, value = dice.choice((0, 0.9)), [], 0
    kind = dice.choice((0, 0, 1, 2))
    for _ in range(count):
        if dice.random() >= hold:
            value = makers[kind]()
        found.append(value)
    return found


def rows(dice: Random, count: int) -> List[List[int]]:
    """Rows of the columns of INPUTS."""
    columns = [walks(dice, count) for _ in TRUTHS] + [numbers(dice, count) for _ in NUMBERS]
    return [list(row) for row in zip(*columns)]
