"""A specification as its author types it: tokens with their places, also of texts that c2po refuses, and items."""

import re
from dataclasses import dataclass, field
from functools import cached_property
from typing import Dict, Iterator, List, NamedTuple, Optional, Tuple

from r2u2tools.common.cli import ToolError

SECTIONS = ("STRUCT", "INPUT", "DEFINE", "FTSPEC", "PTSPEC")
TOKEN = re.compile(
    r"(?P<blank>[ \t\r\n]+|--[^\n]*)|(?P<word>[A-Za-z_]\w*)|(?P<number>[0-9]+)"
    r"|(?P<sign><->|->|=>|:=|==|!=|<=|>=|&&|\|\||[(){}\[\],;:.!<>+\-*/%])",
    re.ASCII,
)
RESERVED = (*SECTIONS, *"bool int set true false foreach forsome forexactly foratleast foratmost F G U R S O H".split())
QUANTIFIERS = ("foreach", "forsome", "forexactly", "foratleast", "foratmost")
# How many bytes of a specification c2po takes.
LARGEST = 1 << 20
NAME = re.compile(r"[A-Za-z_][A-Za-z0-9_]*")


class Token(NamedTuple):
    """A token and its place. Lines count from 1, columns from 0; `kind` is word, number, sign or bad."""

    text: str
    kind: str
    start: int
    end: int
    line: int
    column: int

    def is_name(self) -> bool:
        return self.kind == "word" and self.text not in RESERVED


@dataclass(frozen=True)
class Comment:
    text: str
    start: int
    line: int


@dataclass
class Item:
    """An item: its section, "" before the first one, and its tokens with the `;` that ends it, where one does."""

    section: str
    tokens: List[Token]

    def closed(self) -> bool:
        return self.tokens[-1].text == ";"

    @property
    def start(self) -> int:
        return self.tokens[0].start

    @property
    def end(self) -> int:
        """The end of what comes before the `;`."""
        return self.tokens[-1 - self.closed()].end if len(self.tokens) > self.closed() else self.start

    @property
    def name(self) -> Optional[str]:
        """The name of a struct, a definition or an output."""
        return self.names()[0].text if self.section != "INPUT" and self.names() else None

    def names(self) -> List[Token]:
        """The names that the item declares; an output may have none."""
        texts = [token.text for token in self.tokens]
        sign = ":=" if self.section == "DEFINE" else ":"
        if sign not in texts or not self.tokens[0].is_name():
            return []
        if self.section == "INPUT":
            return [token for token in self.tokens[: texts.index(sign)] if token.is_name()]
        return self.tokens[:1] if texts.index(sign) == 1 else []

    @cached_property
    def body(self) -> List[Token]:
        """The tokens of the expression, without the name and without the `;`."""
        tokens = self.tokens[:-1] if self.closed() else self.tokens
        return tokens[2:] if self.section != "INPUT" and self.names() else tokens

    def is_output(self) -> bool:
        return self.section in ("FTSPEC", "PTSPEC")

    def fields(self) -> List[Tuple[Token, str]]:
        """The fields of a struct with their types."""
        found, names = [], []
        for place, token in enumerate(self.tokens[3:] if self.section == "STRUCT" else [], 3):
            following = self.tokens[place + 1].text if place + 1 < len(self.tokens) else ""
            if token.is_name() and following in (",", ":"):
                names.append(token)
            elif token.text == ";" and names:
                kind = "".join(it.text for it in self.tokens[:place]).rpartition(":")[2]
                found += [(name, kind) for name in names]
                names = []
        return found

    def variables(self) -> List[Token]:
        """The names of the members of the item's quantifiers."""
        pairs = zip(self.tokens, self.tokens[2:])
        return [token for before, token in pairs if before.text in QUANTIFIERS and token.is_name()]


@dataclass
class Source:
    """A text, its tokens, its comments and its items."""

    text: str
    tokens: List[Token] = field(default_factory=list)
    comments: List[Comment] = field(default_factory=list)
    items: List[Item] = field(default_factory=list)

    def lines(self) -> List[str]:
        return self.text.split("\n")

    def at(self, place: int) -> Optional[Token]:
        """The token that holds a place of the text, or that ends there."""
        near = [token for token in self.tokens if token.start <= place <= token.end]
        words = [token for token in near if token.kind in ("word", "number")]
        best = words or near
        return best[-1] if best else None

    def item_of(self, token: Token) -> Optional[Item]:
        return next((item for item in self.items if token in item.tokens), None)

    def declared(self, before: Optional[Item] = None) -> Dict[str, Token]:
        """The names that items declare, those before an item alone where one is given; the first of each."""
        found: Dict[str, Token] = {}
        for item in self.items:
            if item is before:
                break
            for name in item.names():
                found.setdefault(name.text, name)
        return found


def decoded(raw: bytes) -> str:
    """A file as text; bytes that aren't UTF-8 are kept."""
    return raw.decode("utf-8", "surrogateescape")


def encoded(text: str) -> bytes:
    return text.encode("utf-8", "surrogateescape")


def read(text: str) -> Source:
    """A text with its tokens and its items; a character that begins no token is one by itself."""
    source, place, line, began = Source(text), 0, 1, 0
    while place < len(text):
        part = TOKEN.match(text, place)
        found, kind = (part[0], part.lastgroup or "") if part else (text[place], "bad")
        if kind != "blank":
            source.tokens.append(Token(found, kind, place, place + len(found), line, place - began))
        elif found.startswith("--"):
            source.comments.append(Comment(found, place, line))
        place += len(found)
        if "\n" in found:
            line += found.count("\n")
            began = place - len(found) + found.rindex("\n") + 1
    source.items = list(cut(source.tokens))
    return source


def cut(tokens: List[Token]) -> Iterator[Item]:
    """The tokens cut into items as c2po does: at each section's word, and at each `;` outside braces."""
    section, depth = "", 0
    taken: List[Token] = []
    for token in tokens:
        if token.text in SECTIONS:
            if taken:
                yield Item(section, taken)
            section, taken, depth = token.text, [], 0
            continue
        taken.append(token)
        depth += (token.text == "{") - (token.text == "}")
        if token.text == ";" and depth <= 0:
            yield Item(section, taken)
            taken, depth = [], 0
    if taken:
        yield Item(section, taken)


def sound(text: str) -> Source:
    """A text that is read with no fault in a token."""
    source = read(text)
    for token in source.tokens:
        if token.kind == "bad":
            raise ToolError(f"line {token.line}: bad character")
    return source


def tokens(text: str) -> List[Token]:
    return sound(text).tokens


def items(text: str) -> List[Item]:
    """The items of a specification; a text that c2po refuses may pass."""
    found = sound(text).items
    for item in found:
        if not item.section:
            raise ToolError(f"line {item.tokens[0].line}: no section begins here")
        if not item.closed():
            raise ToolError(f"line {item.tokens[-1].line}: an item without its ;")
    return found
