"""Texts of telemetry as the raw numbers that a member of the struct has in flight: integers, or binary numbers exactly."""

from __future__ import annotations

import re
from fractions import Fraction
from typing import Optional, Union

from r2u2tools.signals.model import RANGES, Field
from r2u2tools.telemetry.fields import MISSING, Unfit
from r2u2tools.telemetry.numbers import exact
from r2u2tools.telemetry.records import shown

# A raw number, or None for a field without a value.
Raw = Union[int, float, None]
TRUTHS = {"true": 1, "false": 0}
INFINITE = re.compile(r"([+-]?)inf(inity)?", re.I)
HEX = re.compile(r"[+-]?0[xX][0-9a-fA-F]{1,16}", re.ASCII)
# Of a float: the bits of its fraction, its least exponent, and its greatest number.
DIGITS, LOWEST, MOST = 24, -149, Fraction((1 << 24) - 1) * Fraction(2) ** 104


def raw_of(text: str, field: Field) -> Raw:
    """Returns the raw number of a text; Unfit says why it has none."""
    if text in field.names:
        return field.names[text]
    if text.lower() in MISSING:
        return None
    if field.is_float:
        return binary(text, field.type)
    number = int(text, 16) if HEX.fullmatch(text) else TRUTHS.get(text.lower())
    if number is None:
        found = exact(text)
        if found is None:
            raise Unfit(f"{shown(text)} isn't " + ("a number, and isn't one of names" if field.names else "a number"))
        number, rest = divmod(found[0], found[1])
        if rest:
            raise Unfit(f"{shown(text)} isn't an integer: {field.name} has type {field.type}")
    least, greatest = RANGES[field.type]
    if not least <= number <= greatest:
        raise Unfit(f"{number} is out of range: {field.name} has type {field.type}")
    return number


def binary(text: str, kind: str) -> float:
    """Returns the nearest number of a binary type; of two, the one whose last bit is 0."""
    infinite = INFINITE.fullmatch(text)
    if infinite:
        return float(f"{infinite[1]}inf")
    if text.lower() in TRUTHS:
        return float(TRUTHS[text.lower()])
    found = exact(text)
    if found is None:
        raise Unfit(f"{shown(text)} isn't a number")
    return float(text) if kind == "double" else single(Fraction(*found), text.startswith("-"))


def single(value: Fraction, negative: bool) -> float:
    """Returns the nearest number of 32 bits."""
    size = abs(value)
    if not size:
        return -0.0 if negative else 0.0
    exponent = max(LOWEST, size.numerator.bit_length() - size.denominator.bit_length() - DIGITS)
    for _ in range(2):
        unit = Fraction(2) ** exponent
        if size / unit < 1 << DIGITS:
            break
        exponent += 1
    rounded = round(size / unit) * unit
    found = float(rounded) if rounded <= MOST else float("inf")
    return -found if negative else found


def number_of(value: Optional[Raw]) -> Raw:
    """Returns None for NaN, which is no value."""
    return None if value is not None and value != value else value
