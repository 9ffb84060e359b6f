"""Exact numbers out of texts."""

from __future__ import annotations

import re
from fractions import Fraction
from typing import Optional

from r2u2tools.common.cli import ToolError
from r2u2tools.telemetry.records import shown

NUMBER = re.compile(r"([+-]?)(\d*)(?:\.(\d*))?(?:[eE]([+-]?\d{1,3}))?", re.ASCII)


def exact(text: str) -> Optional[tuple[int, int]]:
    """Returns a decimal as a quotient of integers, not in lowest terms; None where the text isn't one."""
    found = NUMBER.fullmatch(text)
    if not found or len(text) > 400:
        return None
    sign, digits, places, exponent = found.groups()
    if not (digits or places):
        return None
    up = int(exponent or 0) - len(places or "")
    value = int(sign + digits + (places or ""))
    return (value * 10**up, 1) if up >= 0 else (value, 10**-up)


def fraction(text: str) -> Optional[Fraction]:
    """Returns a decimal in lowest terms; it may be a quotient, as 30000/1001."""
    over, sign, under = text.partition("/")
    one, other = exact(over.strip()), exact(under.strip()) if sign else (1, 1)
    if one is None or other is None or not other[0]:
        return None
    return Fraction(*one) / Fraction(*other)


def factor(option: str, text: str) -> Fraction:
    value = fraction(text)
    if value is None or value <= 0:
        raise ToolError(f"{option}: {shown(text)} isn't a number above 0")
    return value


def rounded(over: int, under: int) -> int:
    """Returns the nearest integer to a quotient, halves away from 0."""
    value = (2 * abs(over) + under) // (2 * under)
    return value if over >= 0 else -value
