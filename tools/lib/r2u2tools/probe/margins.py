"""How far a number of a requirement can go before the logs break it."""

from __future__ import annotations

from dataclasses import dataclass
from typing import Iterator, Optional

from r2u2tools.common.source import Token
from r2u2tools.probe.mutants import GREATEST, LATEST, around, count_places, interval_places, is_negated, is_number
from r2u2tools.probe.requirements import Edit, Place, Requirement, Source, kept
from r2u2tools.probe.trials import Trial, Trials

BETWEEN, MORE_COUNT = 7, 16


@dataclass
class Margin:
    """A number of a requirement: the last value with which it still holds, in one direction, and the first with which not."""

    number: int
    k: int
    place: Place
    value: int
    step: int
    limit: int
    sign: int = 1
    holds: int = 0
    fails: Optional[int] = None
    closed: bool = False

    def __post_init__(self) -> None:
        self.holds = self.value

    def values(self) -> list[int]:
        """The next values to try: at first further and further away, then between two."""
        if self.closed:
            return []
        if self.fails is None:
            steps = [self.step << it for it in range(32)]
            far = [self.value + it for it in steps]
            return [it for it in far if (it - self.limit) * self.step <= 0] + [self.limit]
        gap = abs(self.fails - self.holds)
        if gap < 2:
            return []
        steps = sorted({gap * k // (BETWEEN + 1) or 1 for k in range(1, BETWEEN + 1)})
        return [self.holds + self.step * step for step in steps]

    def take(self, values: list[int], false: list[Optional[bool]]) -> None:
        """Takes what was found of such values: up to the first with which the requirement doesn't hold."""
        for value, broken in zip(values, false):
            if broken is not False:
                self.fails = value if broken else None
                break
            self.holds = value
        self.closed = self.fails is None


def limits(body: list[Token], k: int) -> tuple[int, int]:
    """The least and the greatest value that are tried in place of a number."""
    value, intervals = int(body[k].text), interval_places(body)
    if k in intervals:
        low, high = intervals[k]
        if k == low and low != high:
            return 0, int(body[high].text)
        return (int(body[low].text) if low != high else 0), min(LATEST, 16 * value + 64)
    return (0, value + MORE_COUNT) if k in count_places(body) else (-GREATEST, GREATEST)


def numbers(source: Source, requirement: Requirement) -> Iterator[Margin]:
    """Each number of a requirement and of its definitions, in both directions."""
    for number in requirement.items():
        body = source.items[number].body
        for k, token in enumerate(body):
            if is_number(token):
                least, most = limits(body, k)
                place, value, sign = source.place(token), int(token.text), -1 if is_negated(body, k) else 1
                if value < most:
                    yield Margin(number, k, place, value, 1, most, sign)
                if value > least:
                    yield Margin(number, k, place, value, -1, least, sign)


def margins(source: Source, requirement: Requirement, trials: Trials) -> list[Margin]:
    """The numbers of a requirement that holds, each with how far it can go; those that can go on for ever are left out."""
    left = found = list(numbers(source, requirement))
    while left:
        asked = [(margin, margin.values()) for margin in left]
        tried = [numbered(source, requirement, margin, values, k) for k, (margin, values) in enumerate(asked)]
        false = iter(trials.false([it for each in tried for it in each]))
        for margin, values in asked:
            margin.take(values, [next(false) for _ in values])
        left = [margin for margin in left if margin.values()]
    return [margin for margin in found if margin.fails is not None]


def numbered(source: Source, requirement: Requirement, margin: Margin, values: list[int], k: int) -> list[Trial]:
    """The trials of some values; definitions have a name for each."""
    found = []
    for number, value in enumerate(values):
        edit = Edit(margin.number, margin.k, margin.k + 1, str(value) if value >= 0 else f"(-{-value})")
        definitions, body = source.with_edit(requirement, edit, f"{k}_{number}")
        found.append(Trial(requirement.section, kept(body), definitions))
    return found


def described(source: Source, margin: Margin) -> str:
    """The number with what is around it."""
    return around(source.items[margin.number].body, margin.k, str(margin.value))[0]
