"""Expressions of the language as trees over the text that an author wrote.

c2po alone decides what is a specification. Here a text that it takes is cut
into its operators and operands, so that each can be found, quoted or shortened.
"""

from __future__ import annotations

import re
from dataclasses import dataclass
from typing import Iterator, Optional, Sequence

from r2u2tools.common.source import Token, tokens
from r2u2tools.common.cli import ToolError

# How tightly an operator binds; `!` and the operators of time before one operand lie between.
BINARY = {"=>": 0, "<->": 1, "->": 2, "||": 3, "&&": 4, "U": 5, "R": 5, "S": 5}
BINARY |= dict.fromkeys(("==", "!=", "<", "<=", ">", ">="), 7)
BINARY |= {"+": 8, "-": 8, "*": 9, "/": 9, "%": 9}
PREFIX, COMPARED, NEGATIVE = 6, 7, 10
TEMPORAL = ("F", "G", "O", "H", "U", "R", "S")
QUANTIFIERS = ("foreach", "forsome", "forexactly", "foratleast", "foratmost")
COMPARISONS = ("==", "!=", "<", "<=", ">", ">=")
TRUTHS = ("=>", "<->", "->", "||", "&&", "!", *TEMPORAL, *COMPARISONS, *QUANTIFIERS)
CUT = ".."


class Unread(Exception):
    """A text isn't an expression of the language."""


@dataclass(frozen=True)
class Expression:
    """An operator with its operands, or a leaf.

    `op` is the operator as it is written, a quantifier's word, `(` for round brackets, or "" of a leaf: a name, a number,
    a set, a struct or a part of one. `first` and `last` are the places of its tokens, `last` excluded, and `sign` those of
    the operator and its interval, or of a quantifier's head.
    """

    op: str
    parts: tuple[Expression, ...]
    first: int
    last: int
    sign: tuple[int, int] = (0, 0)

    def each(self) -> Iterator[Expression]:
        """The expression and all within it, outer ones first."""
        left = [self]
        while left:
            found = left.pop()
            yield found
            left += reversed(found.parts)

    def bare(self) -> Expression:
        """The expression without round brackets around it."""
        found = self
        while found.op == "(":
            found = found.parts[0]
        return found


class Reader:
    """Reads one expression from tokens by climbing precedences."""

    def __init__(self, read: Sequence[Token]) -> None:
        self.read, self.place = read, 0

    def peek(self) -> str:
        return self.read[self.place].text if self.place < len(self.read) else ""

    def take(self, wanted: str = "") -> str:
        text = self.peek()
        if not text or (wanted and text != wanted):
            raise Unread(text)
        self.place += 1
        return text

    def whole(self) -> Expression:
        found = self.expression(0)
        if self.place < len(self.read):
            raise Unread(self.peek())
        return found

    def expression(self, least: int) -> Expression:
        """An expression of operators that bind at least so tightly."""
        left = self.before_operand()
        while (power := BINARY.get(self.peek(), -1)) >= least:
            begin, op = self.place, self.take()
            self.interval(op)
            sign = (begin, self.place)
            right = self.expression(power if op == "->" else power + 1)
            left = Expression(op, (left, right), left.first, right.last, sign)
        return left

    def interval(self, op: str) -> None:
        """Takes the interval of an operator of time."""
        if op in TEMPORAL:
            self.take("[")
            while self.take() != "]":
                pass

    def before_operand(self) -> Expression:
        """An operand with the operators before it."""
        op, begin = self.peek(), self.place
        if op not in ("!", "-", "F", "G", "O", "H"):
            return self.with_parts(self.primary())
        self.take()
        self.interval(op)
        sign = (begin, self.place)
        operand = self.expression(NEGATIVE if op == "-" else COMPARED)
        return Expression(op, (operand,), begin, operand.last, sign)

    def with_parts(self, found: Expression) -> Expression:
        """A primary with the parts of structs that are picked from it."""
        while self.peek() == ".":
            self.take()
            self.take()
            found = Expression("", (), found.first, self.place)
        return found

    def primary(self) -> Expression:
        begin, text = self.place, self.take()
        if text == "(":
            inner = self.expression(0)
            self.take(")")
            return Expression("(", (inner,), begin, self.place)
        if text in QUANTIFIERS:
            return self.quantifier(text, begin)
        if text == "{" or (text.isidentifier() and self.peek() == "("):
            self.past(begin if text == "{" else begin + 1)
        elif not text.isalnum() and not text.isidentifier():
            raise Unread(text)
        return Expression("", (), begin, self.place)

    def quantifier(self, op: str, begin: int) -> Expression:
        self.past(begin + 1)
        sign = (begin, self.place)
        self.take("(")
        body = self.expression(0)
        self.take(")")
        return Expression(op, (body,), begin, self.place, sign)

    def past(self, begin: int) -> None:
        """Goes past the bracket that begins at a place, and all in it."""
        depth, self.place = 0, begin
        while True:
            text = self.take()
            depth += (text in ("(", "{")) - (text in (")", "}"))
            if depth == 0:
                return


def tree_of(read: Sequence[Token]) -> Optional[Expression]:
    """The tree of some tokens, or None where they aren't an expression."""
    try:
        return Reader(read).whole()
    except (Unread, RecursionError):
        return None


def bound_names(expression: Expression, read: Sequence[Token]) -> set[str]:
    """The names that a quantifier gives to its members."""
    return {read[expression.sign[0] + 2].text} if expression.op in QUANTIFIERS else set()


def plain(text: str, read: Sequence[Token]) -> str:
    """What some tokens are in a text, in one line and without comments."""
    found = ""
    for before, token in zip([None, *read], read):
        apart = before is not None and before.end < token.start
        found += (" " if apart else "") + token.text
    return found


def shortened(text: str, room: int = 72) -> str:
    """An expression in about `room` letters: operands give way to two dots, and never an outer operator."""
    if len(text) <= room:
        return text
    try:
        read = tokens(text.replace("...", "_"))
    except ToolError:
        return f"a formula of {len(text)} letters"
    tree = tree_of(read)
    return Shortener(text.replace("...", "_"), read).within(tree, room) if tree else f"a formula of {len(text)} letters"


class Shortener:
    """Writes the expressions of one text, each in as much room as it is given."""

    def __init__(self, text: str, read: Sequence[Token]) -> None:
        self.text, self.read = text, read

    def written(self, first: int, last: int) -> str:
        return plain(self.text, self.read[first:last])

    def within(self, it: Expression, room: int) -> str:
        text = self.written(it.first, it.last)
        if len(text) <= room:
            return text
        if not it.parts:
            return text if len(text) <= room + len(CUT) else CUT
        sign = self.written(*it.sign)
        if it.op in QUANTIFIERS and len(sign) > room:
            sign = re.sub(r"\{.*\}", "{" + CUT + "}", sign)
        if it.op == "(" or it.op in QUANTIFIERS:
            inner = self.operand(it.parts[0], room - len(sign) - 2)
            return f"{sign}({inner})"
        if len(it.parts) == 1:
            gap = " " if it.op in TEMPORAL else ""
            return f"{sign}{gap}{self.operand(it.parts[0], room - len(sign) - len(gap))}"
        return self.between(it, sign, room - len(sign) - 2)

    def between(self, it: Expression, sign: str, room: int) -> str:
        """Two operands: the shorter one has what it needs, up to half of the room."""
        left, right = it.parts
        sizes = [len(self.written(part.first, part.last)) for part in it.parts]
        half = room // 2
        share = max(half, room - sizes[1]) if sizes[1] < half else min(half, sizes[0])
        before = self.operand(left, share)
        return f"{before} {sign} {self.operand(right, room - len(before))}"

    def operand(self, it: Expression, room: int) -> str:
        """An operand, or two dots where not even its operator would fit."""
        sign = len(self.written(*it.sign)) if it.sign[1] else 2
        fits = len(self.written(it.first, it.last)) <= room
        return self.within(it, room) if fits or room >= sign + 2 * len(CUT) + 2 else CUT
