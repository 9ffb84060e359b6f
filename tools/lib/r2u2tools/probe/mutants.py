"""Small changes of a requirement: of a bound, a constant, an operator, or of a part that becomes a constant."""

from __future__ import annotations

from dataclasses import dataclass
from typing import Iterator

from r2u2tools.common.compiled import arguments
from r2u2tools.common.expressions import COMPARISONS, TEMPORAL, TRUTHS, Expression, plain, tree_of
from r2u2tools.common.source import Token
from r2u2tools.probe.requirements import Edit, Place, Requirement, Source

SWAPPED = {
    "&&": ("||",), "||": ("&&",), "->": ("<->",), "<->": ("->",), "<": ("<=",), "<=": ("<",), ">": (">=",), ">=": (">",),
    "==": ("!=",), "!=": ("==",), "+": ("-",), "F": ("G",), "G": ("F",), "O": ("H",), "H": ("O",), "U": ("R",), "R": ("U",),
}
COUNTING = ("forexactly", "foratleast", "foratmost")
LATEST = 1 << 20
GREATEST = (1 << 31) - 1


@dataclass(frozen=True)
class Mutant:
    """A change with its kind, where it is, and what it makes of what."""

    kind: str
    edit: Edit
    place: Place
    old: str
    new: str


def mutants(source: Source, requirement: Requirement) -> Iterator[Mutant]:
    """All small changes of a requirement and of the definitions that it reads."""
    for number in requirement.items():
        yield from bounds_and_constants(source, number)
        yield from operators(source, number)


def is_number(token: Token) -> bool:
    return token.text.isdigit()


def interval_places(body: list[Token]) -> dict[int, tuple[int, int]]:
    """The places of the numbers of intervals, each with those of the lower and the upper end; one alone is the upper end."""
    found: dict[int, tuple[int, int]] = {}
    for k, token in enumerate(body[:-3]):
        if token.text in TEMPORAL and body[k + 1].text == "[":
            low, high = (k + 2, k + 2) if body[k + 3].text == "]" else (k + 2, k + 4)
            found[low] = found[high] = (low, high)
    return found


def count_places(body: list[Token]) -> set[int]:
    """The places of the numbers of counting quantifiers."""
    found = set()
    for k, token in enumerate(body):
        if token.text in COUNTING and (comma := last_comma(body, k + 1)):
            found.add(comma + 1)
    return found


def last_comma(body: list[Token], begin: int) -> int:
    """The last comma of the bracket that begins at a place."""
    depth = comma = 0
    for k in range(begin, len(body)):
        depth += (body[k].text in ("(", "{")) - (body[k].text in (")", "}"))
        comma = k if body[k].text == "," and depth == 1 else comma
        if depth == 0:
            break
    return comma


def bounds_and_constants(source: Source, number: int) -> Iterator[Mutant]:
    """Each number one more, and one less."""
    body = source.items[number].body
    intervals, counts = interval_places(body), count_places(body)
    for k, token in enumerate(body):
        if is_number(token):
            kind = "bound" if k in intervals else "count" if k in counts else "constant"
            for value in neighbours(body, k, intervals):
                yield Mutant(kind, Edit(number, k, k + 1, str(value)), source.place(token), *around(body, k, str(value)))


def neighbours(body: list[Token], k: int, intervals: dict[int, tuple[int, int]]) -> list[int]:
    value = int(body[k].text)
    least, most = 0, GREATEST
    if k in intervals:
        low, high = intervals[k]
        least = int(body[low].text) if k == high and low != high else 0
        most = int(body[high].text) if k == low and low != high else LATEST
    return [it for it in (value - 1, value + 1) if least <= it <= most]


def is_negated(body: list[Token], k: int) -> bool:
    """Whether a minus before a number is its sign."""
    before = body[k - 2].text if k >= 2 else ""
    return k >= 1 and body[k - 1].text == "-" and not (before.isalnum() or before.isidentifier() or before in (")", "}"))


def around(body: list[Token], k: int, text: str) -> tuple[str, str]:
    """A number with its interval, or with its whole comparison, or else with its sign, as it is and as it becomes."""
    if (found := interval_places(body).get(k)) is not None:
        compared = body[found[0] - 2 : found[1] + 2]
    else:
        compared = comparison_of(body, body[k]) or body[k - is_negated(body, k) : k + 1]
    return changed(compared, body[k], body[k].text), changed(compared, body[k], text)


def comparison_of(body: list[Token], token: Token) -> list[Token]:
    """The tokens of the innermost comparison that has a token, also within a set or a struct; none where no comparison has it."""
    left, found = [body], list[Token]()
    while left:
        read = left.pop()
        tree = tree_of(read)
        for it in tree.each() if tree else ():
            if read[it.first].start <= token.start < read[it.last - 1].end:
                found = read[it.first : it.last] if it.op in COMPARISONS else found
                left += arguments(read[it.first : it.last]) if not it.parts else []
    return found


def changed(compared: list[Token], token: Token, text: str) -> str:
    """Some tokens as they are written, with a text in the place of one."""
    return plain("", [it._replace(text=text) if it is token else it for it in compared])


def operators(source: Source, number: int) -> Iterator[Mutant]:
    """Each operator as its neighbour, and each denial left out."""
    body, tree = source.items[number].body, source.tree(number)
    for it in tree.each() if tree else ():
        k = it.sign[0]
        if it.op == "!":
            yield Mutant("operator", Edit(number, k, k + 1, ""), source.place(body[k]), "!", "nothing")
        if it.op == "-" and len(it.parts) == 2:
            yield Mutant("operator", Edit(number, k, k + 1, "+"), source.place(body[k]), "-", "+")
        compared = body[it.first : it.last] if it.op in COMPARISONS else body[k : k + 1]
        for other in SWAPPED.get(it.op, ()):
            old, new = changed(compared, body[k], it.op), changed(compared, body[k], other)
            yield Mutant("operator", Edit(number, k, k + 1, other), source.place(body[k]), old, new)


def parts(source: Source, requirement: Requirement) -> Iterator[tuple[Expression, int]]:
    """The formulas that a requirement consists of, below its own operator, with the item of each."""
    for number in requirement.items():
        tree = source.tree(number)
        for it in tree.each() if tree else ():
            is_whole = number == requirement.number and it.bare() is tree.bare() if tree else False
            if not is_whole and is_truth(source, number, it):
                yield it, number


def is_truth(source: Source, number: int, it: Expression) -> bool:
    """Whether an expression is a formula by its operator, or a Boolean signal."""
    if it.op in TRUTHS and it.op != "=>":
        return True
    body = source.items[number].body
    signals = {signal.name for signal in source.given.signals if signal.kind == "bool"}
    return it.op == "" and it.last == it.first + 1 and body[it.first].text in signals


def constants(part: Expression, number: int, body: list[Token], place: Place, text: str) -> list[Mutant]:
    """A part replaced by true, and by false."""
    return [Mutant("part", Edit(number, part.first, part.last, word), place, text, word) for word in ("true", "false")]
