"""Decimals of other languages as integers: constants are multiplied by the scale of the signals that they are compared with."""

from __future__ import annotations

import re
from dataclasses import dataclass, field
from fractions import Fraction
from typing import Optional

from r2u2tools.common.cli import ToolError
from r2u2tools.signals import read
from r2u2tools.telemetry.fields import pairs
from r2u2tools.telemetry.numbers import factor

COMPARISONS = ("==", "!=", "<", "<=", ">", ">=")
# Tokens that end an operand of a comparison.
EDGES = {*COMPARISONS, *"&& || -> <-> => ! xor , : := ; { } [ ] F G U R S O H X T Y Z V".split()}
NAME = re.compile(r"[A-Za-z_]\w*", re.ASCII)
NUMBER = re.compile(r"[0-9]+(?:\.[0-9]+)?", re.ASCII)


class Unscaled(Exception):
    """Why a comparison can't be scaled."""


@dataclass
class Scales:
    """The factor of each signal that has one, and the entries of a file of signals that the conversion asks for."""

    factors: dict[str, Fraction] = field(default_factory=dict)
    known: set[str] = field(default_factory=set)
    """The columns that the file of --signals has."""
    writes: bool = False

    def whole(self, name: str) -> int:
        """Returns the factor of a name, which has to be an integer."""
        found = self.factors[name]
        if found.denominator != 1:
            raise Unscaled(f"{name} has the scale {found}, which isn't an integer")
        return int(found)


def scales_of(options: list[str], path: Optional[str], writes: bool) -> Scales:
    """Returns the scales of --scale and of the file of --signals."""
    made = Scales(writes=writes)
    if path:
        for it in read(path).columns:
            made.known.add(it.name)
            if it.source and it.source.is_float:
                made.factors[it.name] = it.scale
    for name, text in pairs("--scale", options):
        if made.factors.get(name, factor("--scale", text)) != factor("--scale", text):
            raise ToolError(f"--scale {name}: {path} has the scale {made.factors[name]}")
        made.factors[name] = factor("--scale", text)
    return made


def operand(tokens: list[str], place: int, way: int) -> int:
    """Returns the place of the last token of an operand that begins at a place and goes left or right."""
    opens, closes = ("(", ")") if way > 0 else (")", "(")
    depth, last = 0, place - way
    while 0 <= place < len(tokens):
        token = tokens[place]
        depth += (token == opens) - (token == closes)
        if depth < 0 or not depth and token in EDGES:
            break
        last, place = place, place + way
    return last


def scaled(tokens: list[str], scales: Scales) -> list[list[str]]:
    """Returns for each token what takes its place, so that both sides of a comparison have the scale of its signals."""
    found = [[token] for token in tokens]
    for k, token in enumerate(tokens):
        if token in COMPARISONS:
            places = range(operand(tokens, k - 1, -1), operand(tokens, k + 1, 1) + 1)
            names = {tokens[it] for it in places if tokens[it] in scales.factors and tokens[it + 1 : it + 2] != ["."]}
            if names:
                compared(tokens, places, names, scales, found)
    return found


def compared(tokens: list[str], places: range, names: set[str], scales: Scales, found: list[list[str]]) -> None:
    """Scales one comparison."""
    factors = {scales.whole(name) for name in names}
    if len(factors) > 1:
        raise Unscaled(f"{' and '.join(sorted(names))} have different scales")
    by = factors.pop()
    for k in places:
        token, around = tokens[k], [tokens[it] if it in places else "" for it in (k - 1, k + 1)]
        if token in ("/", "%"):
            raise Unscaled(f"{token} of scaled numbers")
        if token == "*" and sum(bool(NUMBER.fullmatch(it)) for it in around) != 1:
            raise Unscaled("a product of scaled numbers: one side has to be an integer")
        if NUMBER.fullmatch(token):
            if "*" in around:
                if "." in token:
                    raise Unscaled(f"{token} as a factor isn't an integer")
                continue
            value = Fraction(token) * by
            if value.denominator != 1:
                raise Unscaled(f"{token} times {by} isn't an integer: a larger scale is needed")
            found[k] = [str(value)]
        elif NAME.fullmatch(token) and around[1] == "(":
            raise Unscaled(f"no function {token} here")
        elif NAME.fullmatch(token) and token not in names and "." not in around and by != 1:
            found[k] = ["(", token, "*", str(by), ")"]


def entry(name: str, kind: str, factor: Optional[Fraction]) -> str:
    """Returns an entry of a file of signals for an input."""
    lines = [f"[{name}]", f'from = "{name}"']
    if factor is not None:
        lines += [f"scale = {factor}" if factor.denominator == 1 else f'scale = "{factor}"']
    else:
        lines.append(f'type = "{"bool" if kind == "bool" else "int32"}"')
    return "\n".join([*lines, ""])
