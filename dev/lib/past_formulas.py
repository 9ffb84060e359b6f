"""Past formulas over two Booleans and an integer: made at random, read, and evaluated by their definitions."""

from __future__ import annotations

import re
from dataclasses import dataclass
from random import Random
from typing import Callable, Dict, Iterator, List, Tuple

TOKEN = re.compile(r"\s*([OHS]\[\d+,\d+\]|x [<>] -?\d+|->|&&|\|\||[pq!()])")
Row = Tuple[bool, bool, int]
Values = List[bool]


@dataclass(frozen=True)
class Formula:
    """An operator over formulas, with its interval; or an atom, which is its text."""

    op: str
    parts: Tuple[Formula, ...] = ()
    low: int = 0
    high: int = 0

    def __str__(self) -> str:
        if not self.parts:
            return self.op
        op = f"{self.op}[{self.low},{self.high}]" if self.op in "OHS" else self.op
        if len(self.parts) == 1:
            return f"{op} ({self.parts[0]})"
        return f"({self.parts[0]}) {op} ({self.parts[1]})"


def at_random(dice: Random, depth: int) -> Formula:
    """A formula with at most `depth` operators in one another."""
    if depth == 0 or dice.random() < 0.1:
        return Formula(dice.choice(("p", "q", "p", "q", f"x {dice.choice('<>')} {dice.randint(-2, 2)}")))
    low, high = sorted(dice.randint(0, dice.choice((3, 10, 30))) for _ in range(2))
    op = dice.choice(("O", "O", "H", "H", "S", "S", "S", "!", "&&", "||", "->"))
    count = 1 if op in "OH!" else 2
    parts = tuple(at_random(dice, depth - 1) for _ in range(count))
    return Formula(op, parts, low, high) if op in "OHS" else Formula(op, parts)


def read(text: str) -> Formula:
    """The formula of a text that `str` wrote."""
    tokens = TOKEN.findall(text)
    assert "".join(tokens).replace(" ", "") == text.replace(" ", ""), text

    def operand() -> Formula:
        token = tokens.pop(0)
        if token == "(":
            found = formula()
            tokens.pop(0)
            return found
        return made(token, operand()) if token == "!" or token[0] in "OH" else Formula(token)

    def formula() -> Formula:
        left = operand()
        return made(tokens.pop(0), left, operand()) if tokens and tokens[0] != ")" else left

    return formula()


def made(token: str, *parts: Formula) -> Formula:
    if token[0] not in "OHS":
        return Formula(token, parts)
    low, high = map(int, token[2:-1].split(","))
    return Formula(token[0], parts, low, high)


def window(k: int, low: int, high: int) -> range:
    """The rows of an interval that looks back from row k, the latest first."""
    return range(k - low, max(k - high, 0) - 1, -1)


def once(k: int, low: int, high: int, a: Values) -> bool:
    return any(a[j] for j in window(k, low, high))


def historically(k: int, low: int, high: int, a: Values) -> bool:
    return all(a[j] for j in window(k, low, high))


def since(k: int, low: int, high: int, a: Values, b: Values) -> bool:
    return any(b[j] and all(a[j + 1 : k + 1]) for j in window(k, low, high))


DEFINITIONS: Dict[str, Callable[..., bool]] = {"O": once, "H": historically, "S": since}
# Wrong definitions, by what is wrong.
WRONG: Dict[str, Dict[str, Callable[..., bool]]] = {
    "once looks back one row less": {"O": lambda k, low, high, a: high > low and once(k, low, high - 1, a) or high == low and once(k, low, high, a)},
    "once looks back one row more": {"O": lambda k, low, high, a: once(k, low, high + 1, a)},
    "once begins one row late": {"O": lambda k, low, high, a: once(k, min(low + 1, high), high, a)},
    "historically looks back one row more": {"H": lambda k, low, high, a: historically(k, low, high + 1, a)},
    "historically is false where no row is in its interval": {"H": lambda k, low, high, a: k >= low and historically(k, low, high, a)},
    "historically is false where its interval begins before row 0": {"H": lambda k, low, high, a: k >= high and historically(k, low, high, a)},
    "once is true where no row is in its interval": {"O": lambda k, low, high, a: k < low or once(k, low, high, a)},
    "since asks its left operand at the row of the right one": {"S": lambda k, low, high, a, b: any(b[j] and all(a[j : k + 1]) for j in window(k, low, high))},
    "since doesn't ask its left operand now": {"S": lambda k, low, high, a, b: any(b[j] and all(a[j + 1 : k]) for j in window(k, low, high))},
    "since looks back one row less": {"S": lambda k, low, high, a, b: since(k, low, max(high - 1, low), a, b)},
    "since forgets its lower bound": {"S": lambda k, low, high, a, b: since(k, 0, high, a, b)},
    "trigger for since": {"S": lambda k, low, high, a, b: all(b[j] or any(a[j + 1 : k + 1]) for j in window(k, low, high))},
}


def values(it: Formula, rows: List[Row], wrong: Dict[str, Callable[..., bool]]) -> Values:
    """The verdicts of a formula at each row, by the definitions, some of which may be wrong."""
    if not it.parts:
        return list(atoms(it.op, rows))
    parts = [values(part, rows, wrong) for part in it.parts]
    if it.op in DEFINITIONS:
        meaning = wrong.get(it.op) or DEFINITIONS[it.op]
        return [meaning(k, it.low, it.high, *parts) for k in range(len(rows))]
    plain: Dict[str, Callable[..., bool]] = {"!": lambda a: not a, "&&": lambda a, b: a and b, "||": lambda a, b: a or b, "->": lambda a, b: not a or b}
    return [plain[it.op](*row) for row in zip(*parts)]


def atoms(text: str, rows: List[Row]) -> Iterator[bool]:
    for p, q, x in rows:
        yield p if text == "p" else q if text == "q" else x < int(text[3:]) if text[2] == "<" else x > int(text[3:])
