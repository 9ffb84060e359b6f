"""Integers that fulfil sums: Pugh's Omega test, which is exact.

Variables are eliminated one by one: by an equation that has one, else by pairing each bound below it with each above it.
Where such a pair may have no integer between it, the narrower pairs are tried, then the integers next to each lower bound.
"""

from __future__ import annotations

from math import gcd
from typing import Iterator, Mapping, Optional, Sequence

# A sum of variables, each with its factor; the number is that of the empty name.
Sum = dict[str, int]
Values = dict[str, int]
NUMBER = ""


class Unknown(Exception):
    """Whether there are such integers isn't found within the steps that are tried."""


def added(one: Sum, by: int, other: Sum, times: int) -> Sum:
    """The sum of `by` times the one and `times` times the other."""
    found = {name: by * count for name, count in one.items()}
    for name, count in other.items():
        found[name] = found.get(name, 0) + times * count
    return {name: count for name, count in found.items() if count}


def value_of(total: Sum, values: Mapping[str, int]) -> int:
    """What a sum is; a variable without a value is 0."""
    return sum(count * (values.get(name, 0) if name else 1) for name, count in total.items())


def variables(total: Sum) -> list[str]:
    return [name for name, count in total.items() if name and count]


def replaced(total: Sum, name: str, by: Sum) -> Sum:
    """A sum with another one in the place of a variable."""
    if name not in total:
        return total
    return added({it: count for it, count in total.items() if it != name}, 1, by, total[name])


def divided(total: Sum) -> Sum:
    """A sum that is at most 0, by what its variables have in common."""
    by = gcd(*(total[name] for name in variables(total)))
    return {name: -(-count // by) for name, count in total.items()}


def negative(total: Sum) -> Sum:
    return {name: -count for name, count in total.items()}


class Omega:
    """Searches integers for sums, in at most `most_steps` steps."""

    def __init__(self, most_steps: int) -> None:
        self.left, self.fresh = most_steps, 0

    def solved(self, zero: Sequence[Sum], below: Sequence[Sum]) -> Optional[Values]:
        """Integers by which some sums are 0 and others at most 0; None where there are none."""
        self.left -= 1
        if self.left < 0:
            raise Unknown
        for k, total in enumerate(zero):
            by = gcd(*(total[name] for name in variables(total)))
            if total.get(NUMBER, 0) % by if by else total.get(NUMBER, 0):
                return None
            if by:
                total = {name: count // by for name, count in total.items()}
                return self.by_equation(total, [*zero[:k], *zero[k + 1 :]], below)
        bounds = tightest(below)
        if bounds is None:
            return None
        if equal := next((total for key, total in bounds.items() if pinned(total, bounds)), None):
            return self.solved([equal], list(bounds.values()))
        return self.eliminated(list(bounds.values()))

    def by_equation(self, total: Sum, zero: Sequence[Sum], below: Sequence[Sum]) -> Optional[Values]:
        """Takes a variable out by an equation; where none has the factor 1 there, another equation has smaller factors."""
        name = min(variables(total), key=lambda it: abs(total[it]))
        size, sign = abs(total[name]), 1 if total[name] > 0 else -1
        rest = {it: count for it, count in total.items() if it != name}
        if size == 1:
            by, more = added(rest, -sign, {}, 0), []
        else:
            self.fresh += 1
            helper = f"?{self.fresh}"
            quotients = {it: count // size for it, count in rest.items()}
            by = added(quotients, -sign, {helper: 1}, sign)
            more = [added({it: count % size for it, count in rest.items()}, 1, {helper: size}, 1)]
        found = self.solved([*more, *(replaced(it, name, by) for it in zero)], [replaced(it, name, by) for it in below])
        return None if found is None else {**found, name: value_of(by, found)}

    def eliminated(self, below: list[Sum]) -> Optional[Values]:
        """Takes a variable out by its bounds."""
        if not below:
            return {}
        name, is_exact = self.cheapest(below)
        lower, upper = [it for it in below if it.get(name, 0) < 0], [it for it in below if it.get(name, 0) > 0]
        rest = [it for it in below if name not in it]
        found = self.solved([], [*rest, *pairs(name, lower, upper, 0)])
        if found is None:
            return None
        if not is_exact and not between(name, lower, upper, found):
            found = self.solved([], [*rest, *pairs(name, lower, upper, 1)])
        if found is not None:
            return {**found, name: between(name, lower, upper, found)[0]}
        return self.beside(name, lower, upper, below)

    def cheapest(self, below: Sequence[Sum]) -> tuple[str, bool]:
        """The variable with the fewest pairs of bounds, of those whose pairs are exact where there is one."""
        ranked: list[tuple[bool, int, str]] = []
        for name in dict.fromkeys(name for it in below for name in variables(it)):
            lower = [-it[name] for it in below if it.get(name, 0) < 0]
            upper = [it[name] for it in below if it.get(name, 0) > 0]
            is_exact = set(lower) <= {1} or set(upper) <= {1}
            ranked.append((not is_exact, len(lower) * len(upper), name))
        inexact, _, name = min(ranked)
        return name, not inexact

    def beside(self, name: str, lower: Sequence[Sum], upper: Sequence[Sum], below: Sequence[Sum]) -> Optional[Values]:
        """Tries the integers next to each lower bound: where the narrower pairs have none, one of these it is."""
        most = max(it[name] for it in upper)
        for it in lower:
            size = -it[name]
            for more in range((most * size - most - size) // most + 1):
                if (found := self.solved([added(it, 1, {NUMBER: 1}, more)], below)) is not None:
                    return found
        return None


def tightest(below: Sequence[Sum]) -> Optional[dict[tuple[tuple[str, int], ...], Sum]]:
    """The sums that are at most 0, of equal ones but for their number the strictest; None where one can't be."""
    found: dict[tuple[tuple[str, int], ...], Sum] = {}
    for total in below:
        if not variables(total):
            if total.get(NUMBER, 0) > 0:
                return None
            continue
        total = divided(total)
        key = key_of(total)
        if key not in found or found[key].get(NUMBER, 0) < total.get(NUMBER, 0):
            found[key] = total
    for total in found.values():
        other = found.get(key_of(negative(total)))
        if other and total.get(NUMBER, 0) + other.get(NUMBER, 0) > 0:
            return None
    return found


def key_of(total: Sum) -> tuple[tuple[str, int], ...]:
    return tuple(sorted((name, total[name]) for name in variables(total)))


def pinned(total: Sum, bounds: Mapping[tuple[tuple[str, int], ...], Sum]) -> bool:
    """Whether a sum that is at most 0 is also at least 0."""
    other = bounds.get(key_of(negative(total)))
    return other is not None and total.get(NUMBER, 0) == -other.get(NUMBER, 0)


def pairs(name: str, lower: Sequence[Sum], upper: Sequence[Sum], narrow: int) -> Iterator[Sum]:
    """What each bound below a variable and each above it say together; the narrow ones leave an integer between them."""
    for low in lower:
        for high in upper:
            room = narrow * (-low[name] - 1) * (high[name] - 1)
            yield added(added(low, high[name], high, -low[name]), 1, {NUMBER: 1}, room)


def between(name: str, lower: Sequence[Sum], upper: Sequence[Sum], values: Values) -> list[int]:
    """An integer between the bounds of a variable, that next to 0; none where there is none."""
    low = max((-(value_of({**it, name: 0}, values) // it[name]) for it in lower), default=None)
    high = min((-value_of({**it, name: 0}, values) // it[name] for it in upper), default=None)
    if low is not None and high is not None and low > high:
        return []
    if low is not None and low > 0:
        return [low]
    return [high] if high is not None and high < 0 else [0]
