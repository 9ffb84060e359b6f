"""The layout of a specification: one way to set blanks, with the author's lines and comments.

Lines stay where the author broke them. What is set is the blanks between tokens,
how far items are indented, and empty lines: one at most, and none at either end.
"""

import re
from typing import List, Optional, Union

from r2u2tools.common.source import QUANTIFIERS, SECTIONS, TOKEN, Comment, Source, Token, read

ITEM, MORE, FIELD = 2, 4, 4
OPENING, CLOSING = ("(", "[", "{"), (")", "]", "}")
TEMPORAL = tuple("FGURSOH")
# What makes a brace one with blanks inside; a comment has one before it in the layout.
APART = re.compile(r"\s|--")
Part = Union[Token, Comment]


class Layout:
    """The state of a text that is formatted, token by token."""

    def __init__(self, source: Source):
        self.source, self.done = source, [""]
        self.last: Optional[Token] = None
        self.part: Optional[Part] = None
        self.inner: List[str] = []
        # For each open brace, whether it has blanks inside, and what the bracket was that closed last.
        self.braces: List[bool] = []
        self.closed = ""
        self.kinds = self.signs = False
        self.item: Optional[Token] = None
        self.section = ""

    def gap(self, token: Token) -> str:
        """The blanks between the token before and this one, on one line; without one they never become another token."""
        last = self.last
        if last is None:
            return ""
        return " " if not self.is_tight(last, token) or joins(last, token) else ""

    def is_tight(self, last: Token, token: Token) -> bool:
        """Whether no blank belongs between two tokens."""
        if self.kinds and (token.text in "<>" or last.text == "<") or self.inner and self.inner[-1] == "[":
            return True
        if last.text == "{" or token.text == "}":
            return not (self.section == "STRUCT" or self.braces and self.braces[-1])
        if token.text in (",", ";", ":", ".", ")", "]") or last.text in ("(", ".", "[") or self.is_prefix(last):
            return True
        if token.text == "(":
            return last.is_name() or last.text in QUANTIFIERS or self.ends_quantifier(last)
        return token.text == "[" and last.text in TEMPORAL

    def is_prefix(self, token: Token) -> bool:
        return token.text == "!" or token.text == "-" and self.signs

    def ends_quantifier(self, last: Token) -> bool:
        """Whether a bracket ends the set of a quantifier, whose body follows at once."""
        return last.text == ")" and self.closed in QUANTIFIERS

    def margin(self, token: Token) -> str:
        """The indentation of a token that begins a line."""
        if token.text in SECTIONS:
            return ""
        if self.item is None:
            return " " * ITEM
        if self.section == "STRUCT" and self.inner:
            return " " * (ITEM if token.text == "}" else FIELD)
        return " " * max(MORE, token.column)

    def feed(self, part: Part) -> None:
        """Puts one token or comment at its place."""
        breaks = self.source.text.count("\n", ends(self.part), part.start) if self.part else 0
        if self.part is None or breaks:
            self.done += [""] * min(breaks, 2)
            self.done[-1] = self.begin(part)
        elif isinstance(part, Comment):
            self.done[-1] += self.source.text[ends(self.part) : part.start] or " "
        else:
            self.done[-1] += self.gap(part)
        self.done[-1] += part.text.rstrip()
        self.part = part
        if isinstance(part, Token):
            self.note(part)

    def begin(self, part: Part) -> str:
        if isinstance(part, Comment):
            column = part.start - self.source.text.rfind("\n", 0, part.start) - 1
            return " " * min(column, ITEM) if self.item is None else " " * column
        return self.margin(part)

    def note(self, token: Token) -> None:
        """Takes what the next token has to know of this one."""
        before = self.last
        self.signs = token.text == "-" and (before is None or not is_operand(before))
        self.last = token
        if token.text in SECTIONS:
            self.section, self.item, self.inner, self.last, self.braces = token.text, None, [], token, []
            self.kinds = False
            return
        self.item = self.item or token
        if token.text in OPENING:
            self.inner.append(before.text if token.text == "(" and before and before.text in QUANTIFIERS else token.text)
            if token.text == "{":
                self.braces.append(bool(APART.match(self.source.text, token.end)))
        elif token.text in CLOSING and self.inner:
            self.closed = self.inner.pop()
            if token.text == "}" and self.braces:
                self.braces.pop()
        self.kinds = self.section in ("STRUCT", "INPUT") and (token.text in (":", "<", ">") or token.text == "set" or self.kinds)
        if token.text == ";":
            self.kinds = False
            if not self.inner:
                self.item = None


def joins(last: Token, token: Token) -> bool:
    """Whether two tokens side by side would begin with a longer one, or be a comment."""
    found = TOKEN.match(last.text + token.text)
    return found is not None and found.end() > len(last.text)


def is_operand(token: Token) -> bool:
    """Whether a `-` after this token is one between operands."""
    return token.kind == "number" or token.is_name() or token.text in ("true", "false", ")", "}")


def ends(part: Optional[Part]) -> int:
    return part.start + len(part.text) if part else 0


def laid_out(text: str) -> str:
    """A text in the one layout; characters that begin no token stay as separate tokens."""
    source = read(text.lstrip("\ufeff"))
    parts: List[Part] = [*source.tokens, *source.comments]
    layout = Layout(source)
    for part in sorted(parts, key=lambda it: it.start):
        layout.feed(part)
    return "\n".join(line.rstrip() for line in layout.done).rstrip("\n") + "\n" if parts else ""
