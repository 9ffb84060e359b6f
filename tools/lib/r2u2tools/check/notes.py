"""What docs/reference/messages.md says of a fault: the row of its table that fits."""

import re
from dataclasses import dataclass
from functools import lru_cache
from pathlib import Path
from typing import Callable, Dict, FrozenSet, List, Optional, Tuple

from r2u2tools.common.programs import HOME
from r2u2tools.common.source import RESERVED, Item, Token, read

PAGE = HOME / "docs/reference/messages.md"
CODE = re.compile(r"`([^`]+)`")


@dataclass(frozen=True)
class Row:
    """A row of the page: the usual cause, a wrong line and a right one."""

    rule: str
    wrong: str
    right: str

    def text(self) -> str:
        return f"{self.rule}: `{self.right}`" if self.right else self.rule


@dataclass(frozen=True)
class Place:
    """A token at fault among those of its item, as texts. `missing` is what would fit there, or what else is known."""

    section: str
    texts: Tuple[str, ...]
    at: int
    missing: str = ""

    def text(self, way: int) -> str:
        """The token `way` places on, or "" where there is none."""
        place = self.at + way
        return self.texts[place] if 0 <= place < len(self.texts) else ""

    @property
    def token(self) -> str:
        return self.text(0)

    @property
    def before(self) -> str:
        return self.text(-1)

    @property
    def after(self) -> str:
        return self.text(1)

    def near(self) -> FrozenSet[str]:
        """The tokens at fault and before it, in lower case."""
        return frozenset((self.token.lower(), self.before.lower()))


def place_of(item: Item, token: Optional[Token], missing: str = "") -> Place:
    at = item.tokens.index(token) if token in item.tokens else len(item.tokens)
    return Place(item.section, tuple(it.text for it in item.tokens), at, missing)


def is_word(text: str) -> bool:
    return text in RESERVED


ORDERS = ("<", "<=", ">", ">=")
TEMPORAL = ("F", "G", "U", "R", "S", "O", "H")
Test = Callable[[Place], bool]
# By message: when a row fits, and how what it says begins.
FITTING: Dict[str, List[Tuple[Test, str]]] = {
    "syntax": [
        (lambda it: it.token == "." and it.before.isdigit(), "a decimal"),
        (lambda it: "xor" in it.near(), "exclusive or"),
        (lambda it: bool({"and", "or", "not", "implies", "iff"} & it.near()), "words for operators"),
        (lambda it: it.before in TEMPORAL and it.token == "(", "round brackets"),
        (lambda it: it.missing == "digits", "the mission time"),
        (lambda it: "X" in (it.before, it.token), '"next"'),
        (lambda it: is_word(it.token) and it.missing.startswith(("a name", "a label", "the name")), "a name that is a"),
        (lambda it: it.before == "G" and "interval" in it.missing, '"always"'),
        (lambda it: "interval" in it.missing, "an operator of time without"),
        (lambda it: it.before == "{" and it.token == "}", "an empty set"),
        (lambda it: it.token == "=>" and ")" in it.missing, "a contract in brackets"),
        (lambda it: it.missing in ("a name for the member", "`,` and a number"), "the number of a counting"),
        (lambda it: it.texts[:2] == ("/", "/") or it.near() == {"/"}, "`//` for a comment"),
        (lambda it: not it.section, "nothing names a section"),
        (lambda it: it.section == "STRUCT" and it.before == "}" and "`;`" in it.missing, "no `;` after the `}`"),
        (lambda it: "`;`" in it.missing and (not it.token or it.after in (":", ":=", ",")), "no `;` at the end"),
    ],
    "bad character": [
        (lambda it: it.token in ("&", "|"), "one `&` or `|`"),
        (lambda it: it.token == "=", "one `=`"),
        (lambda it: it.token == "#", "`#` for a comment"),
        (lambda it: not it.token.isascii() or it.token in "'\"`", "a letter outside ASCII"),
    ],
    "wrong kind": [
        (lambda it: it.section == "INPUT", "a signal that is"),
        (lambda it: it.token in ORDERS and any(it.text(-k) in ORDERS for k in range(1, 4)), "two comparisons"),
        (lambda it: it.token in ("==", "!=") and (it.after.isdigit() or it.before.isdigit()), "a Boolean compared"),
        (lambda it: it.token in ("==", "!="), "two Booleans compared"),
        (lambda it: it.token == "{" or "{" in it.texts[: it.at], "a set of two types"),
        (lambda it: it.missing == "struct", "a struct in place"),
        (lambda it: it.token in ("!", "&&", "||", "->", "<->", "=>") or it.token[:1].isalpha(), "a number where"),
    ],
    "unknown name": [
        (lambda it: it.missing == "later", "a name that is defined later"),
        (lambda it: it.missing == "type", "a type that isn't there"),
        (lambda it: it.missing == "near", "another spelling"),
    ],
    "name declared twice": [
        (lambda it: it.before == "(", "the name of a quantifier"),
        (lambda it: True, "a signal, a definition"),
    ],
    "bad interval": [
        (lambda it: "for" in it.missing, "the number of a counting"),
        (lambda it: it.missing == "end", "an end above"),
        (lambda it: True, "the ends the wrong way"),
    ],
    "bad divisor": [
        (lambda it: it.after.isdigit(), "division by what may be 0"),
        (lambda it: True, "division by a signal"),
    ],
    "mixed tense": [
        (lambda it: bool({"F", "G", "U", "R"} & set(it.texts)) and bool({"O", "H", "S"} & set(it.texts)), "both in one"),
        (lambda it: it.section == "FTSPEC", "`O`, `H` or `S`"),
        (lambda it: it.section == "PTSPEC", "`F`, `G`, `U` or `R`"),
    ],
}
# Messages that have one row alone, or whose first one says enough.
ALONE = (
    "wrong number of arguments", "unknown field", "number too large", "number range", "word too long", "item too long",
    "expansion too large", "too many signals", "too many nodes", "delay too large", "too many slots",
)


def cells(line: str) -> List[str]:
    return [cell.strip().replace("\\|", "|") for cell in re.split(r"(?<!\\)\|", line)[1:-1]]


def plain(text: str) -> str:
    """A text without its links."""
    return re.sub(r"\[([^\]]*)\]\([^)]*\)", r"\1", text)


def words(line: str) -> FrozenSet[str]:
    """The tokens of a line."""
    return frozenset(token.text for token in read(line).tokens)


def code(cell: str) -> str:
    found = CODE.search(cell)
    return found[1] if found else ""


def told_by(head: str, row: List[str], before: Tuple[str, str]) -> Tuple[str, Optional[Row]]:
    """The message of a line of a table, and what the line says; an empty cell repeats the one above it."""
    message, rule = before
    if head:
        return head, Row(plain(row[0]) or rule, code(row[1]), code(row[2])) if len(row) == 3 else None
    message = code(row[0]) or message
    if len(row) == 4:
        return message, Row(plain(row[1]), code(row[2]), code(row[3]))
    return message, Row(f"{plain(row[1])}; what helps: {plain(row[2])}", "", "")


@lru_cache(maxsize=None)
def rows(page: Path = PAGE) -> Dict[str, List[Row]]:
    """The rows of the page by message; none where the page isn't there."""
    found: Dict[str, List[Row]] = {}
    try:
        text = page.read_text(encoding="utf-8")
    except OSError:
        return found
    head, message, rule = "", "", ""
    lines = text.partition("\n## The specification")[2].partition("\n## Traces")[0].splitlines()
    for line, following in zip(lines, [*lines[1:], ""]):
        if line.startswith("#"):
            head = message = code(line)
            continue
        row = cells(line) if line.startswith("|") else []
        if len(row) < 3 or following.startswith("|---") or line.startswith("|---"):
            continue
        message, told = told_by(head, row, (message, rule))
        if told:
            rule = told.rule
            found.setdefault(message, []).append(told)
    return found


def note(what: str, place: Place) -> Optional[Row]:
    """The row that fits a fault, where one does."""
    told = rows().get(what, [])
    if what in ALONE:
        return told[0] if told else None
    for fits, begins in FITTING.get(what, []):
        if fits(place):
            same = [row for row in told if row.rule.startswith(begins)]
            own = (row for row in same if place.near() & words(row.wrong) - words(row.right))
            return next(own, same[0] if same else None)
    return None
