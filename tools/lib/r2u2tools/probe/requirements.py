"""The requirements of a specification, and how each is written with some of its tokens changed.

A requirement reads definitions. A change in one of these is written as further
definitions under other names, so that all other requirements stay as they are.
"""

from __future__ import annotations

from dataclasses import dataclass, field
from typing import Optional

from r2u2tools.common.compiled import is_formula
from r2u2tools.common.expressions import Expression, plain, tree_of
from r2u2tools.common.source import Item, Token, tokens
from r2u2tools.common.specs import Spec
from r2u2tools.common.cli import ToolError


@dataclass(frozen=True)
class Edit:
    """Tokens of one item, from `first` to `last` (excluded), that give way to a text."""

    item: int
    first: int
    last: int
    text: str


@dataclass(frozen=True)
class Place:
    """Where a token is in the file."""

    line: int
    column: int


@dataclass
class Requirement:
    """An output: its item, the definitions that it reads, and its formula, or the two of a contract."""

    name: str
    section: str
    number: int
    reads: list[int] = field(default_factory=list)

    def items(self) -> list[int]:
        return [self.number, *self.reads]


class Source:
    """A specification with its items by number."""

    def __init__(self, given: Spec) -> None:
        if given.is_program():
            raise ToolError(f"{given.path}: a compiled program has no text to change: give the specification")
        self.given, self.items, self.text = given, given.items, given.text or ""
        self.by_name = {item.name: k for k, item in enumerate(self.items) if item.section == "DEFINE" and item.name}
        used = {token.text for item in self.items for token in item.body} | {item.name for item in self.items}
        self.stem = "m"
        while any(word and word.startswith(self.stem + "_") for word in used):
            self.stem += "m"

    def head(self) -> str:
        """The declarations, one item to a line."""
        kept = [item for item in self.items if item.section not in ("FTSPEC", "PTSPEC")]
        return "\n".join(f"{item.section} {self.one_line(item)};" for item in kept)

    def one_line(self, item: Item) -> str:
        return plain(self.text, tokens(self.text[item.start : item.end]))

    def requirements(self) -> list[Requirement]:
        found = [k for k, item in enumerate(self.items) if item.section in ("FTSPEC", "PTSPEC")]
        return [
            Requirement(self.items[k].name or str(number), self.items[k].section, k, self.reads(k))
            for number, k in enumerate(found)
        ]

    def reads(self, number: int) -> list[int]:
        """The definitions that an item reads, also by others, in the order of the file."""
        found: set[int] = set()
        left = [number]
        while left:
            for token in self.items[left.pop()].body:
                k = self.by_name.get(token.text)
                if k is not None and k not in found:
                    found.add(k)
                    left.append(k)
        return sorted(found)

    def place(self, token: Token) -> Place:
        return Place(token.line, token.start - self.text.rfind("\n", 0, token.start))

    def tree(self, number: int) -> Optional[Expression]:
        """The formula of an item, a contract too; None of a definition that is a set or a struct."""
        body = self.items[number].body
        return tree_of(body) if self.items[number].section != "DEFINE" or is_formula(body) else None

    def edited(self, number: int, edit: Edit, renamed: dict[int, str]) -> str:
        """The body of an item with an edit, if that is in it, and other names for some definitions."""
        item, found, k = self.items[number], list[str](), 0
        while k < len(item.body):
            if number == edit.item and k == edit.first:
                found.append(edit.text)
                k = max(edit.last, k + 1)
                continue
            text = item.body[k].text
            after_dot = k > 0 and item.body[k - 1].text == "."
            new = renamed.get(self.by_name.get(text, -1))
            found.append(new if new and not after_dot else text)
            k += 1
        return " ".join(found)

    def with_edit(self, requirement: Requirement, edit: Edit, label: str) -> tuple[str, str]:
        """The definitions that an edit needs, and the requirement with it."""
        changed: dict[int, str] = {}
        lines = []
        for k in requirement.reads:
            if k == edit.item or any(it in changed for it in self.reads(k)):
                name = f"{self.stem}_{label}_{k}"
                lines.append(f"DEFINE {name} := {self.edited(k, edit, changed)};")
                changed[k] = name
        return " ".join(lines), self.edited(requirement.number, edit, changed)

    def body(self, requirement: Requirement) -> str:
        return " ".join(token.text for token in self.items[requirement.number].body)


def agreement(old: str, new: str) -> str:
    """A formula that holds where two requirements have the same word."""
    ours, theirs = old.split(" => "), new.split(" => ")
    if len(ours) == 1:
        return f"(({ours[0]}) <-> ({theirs[0]}))"
    left = f"(({ours[0]}) <-> ({theirs[0]}))"
    return f"({left} && (({ours[0]}) -> (({ours[1]}) <-> ({theirs[1]}))))"


def kept(body: str) -> str:
    """A formula that is false where a requirement is: where a contract is invalid."""
    sides = body.split(" => ")
    return f"({sides[0]})" if len(sides) == 1 else f"(({sides[0]}) -> ({sides[1]}))"
