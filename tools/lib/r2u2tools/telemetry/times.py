"""Times of telemetry as exact numbers of seconds: decimals in a unit, or dates of ISO 8601."""

from __future__ import annotations

import datetime
import re
from fractions import Fraction
from typing import Optional

from r2u2tools.telemetry.numbers import exact, fraction

UNITS = {"s": Fraction(1), "ms": Fraction(1, 10**3), "us": Fraction(1, 10**6), "ns": Fraction(1, 10**9)}
EPOCH = datetime.date(1970, 1, 1).toordinal()
ISO = re.compile(
    r"(\d{4})-?(?:(\d\d)-?(\d\d)|(\d{3}))[T ](\d\d):?(\d\d)(?::?(\d\d)(?:[.,](\d{1,18}))?)?\s*(Z|z|UTC|[+-]\d\d(?::?\d\d)?)?", re.ASCII
)


def iso(text: str) -> Optional[tuple[int, int]]:
    """Returns the seconds since 1970 of a date with its time of day, as a quotient; without a zone it counts as UTC."""
    found = ISO.fullmatch(text)
    if not found:
        return None
    year, month, day, of_year, hour, minute, second, places, zone = found.groups()
    try:
        date = datetime.date(int(year), int(month or 1), int(day or 1)).toordinal() + (int(of_year) - 1 if of_year else 0)
        clock = datetime.time(int(hour), int(minute), int(second or 0))
    except ValueError:
        return None
    if of_year and not 1 <= int(of_year) <= 366:
        return None
    whole = (date - EPOCH) * 86400 + clock.hour * 3600 + clock.minute * 60 + clock.second - zone_of(zone)
    under = 10 ** len(places or "")
    return whole * under + int(places or 0), under


def zone_of(zone: Optional[str]) -> int:
    """Returns how many seconds a zone is ahead of UTC."""
    if not zone or zone in ("Z", "z", "UTC"):
        return 0
    digits = zone[1:].replace(":", "")
    away = int(digits[:2]) * 3600 + int(digits[2:] or 0) * 60
    return away if zone[0] == "+" else -away


class Clock:
    """Reads times in one unit. Dates are seconds, whatever the unit."""

    def __init__(self, unit: Fraction, comma: bool = False) -> None:
        self.unit, self.comma = unit, comma

    def read(self, text: str) -> Optional[tuple[int, int]]:
        """Returns a time as a quotient of seconds, not in lowest terms; None where it is none."""
        found = exact(text.replace(",", ".") if self.comma else text)
        if found is None:
            return iso(text)
        return found[0] * self.unit.numerator, found[1] * self.unit.denominator

    def fraction(self, text: str) -> Optional[Fraction]:
        """Returns a time in lowest terms; it may be a quotient of seconds."""
        found = iso(text)
        return Fraction(*found) if found else fraction(text)
