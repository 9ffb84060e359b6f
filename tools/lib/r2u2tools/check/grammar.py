"""Where an item leaves the grammar: the first token that fits nothing, and what would fit.

c2po says of a whole item that it isn't in the grammar. What is found here is the
place to look at; where nothing is found, that place is the item's first token.
"""

from dataclasses import dataclass
from typing import List, Optional

from r2u2tools.common.source import QUANTIFIERS, Item, Token

INFIX = ("<->", "->", "||", "&&", "==", "!=", "<", "<=", ">", ">=", "+", "-", "*", "/", "%")
TIMED_INFIX, TIMED_PREFIX = ("U", "R", "S"), ("F", "G", "O", "H")
COUNTING = ("forexactly", "foratleast", "foratmost")
CLOSING = {"(": ")", "{": "}"}


@dataclass
class Misfit(Exception):
    """A token that fits nothing; none where the item ends too early. `what` would fit there."""

    token: Optional[Token]
    before: Optional[Token]
    what: str


class Walk:
    """A walk over the tokens of one item."""

    def __init__(self, tokens: List[Token]):
        self.tokens, self.place = tokens, 0

    def now(self) -> Optional[Token]:
        return self.tokens[self.place] if self.place < len(self.tokens) else None

    def text(self) -> str:
        token = self.now()
        return token.text if token else ""

    def misfit(self, what: str) -> Misfit:
        return Misfit(self.now(), self.tokens[self.place - 1] if self.place else None, what)

    def take(self, text: str, what: str = "") -> None:
        if self.text() != text:
            raise self.misfit(what or f"`{text}`")
        self.place += 1

    def takes(self, *texts: str) -> bool:
        found = self.text() in texts
        self.place += found
        return found

    def name(self, what: str = "a name") -> None:
        token = self.now()
        if token is None or not token.is_name():
            raise self.misfit(what)
        self.place += 1

    def number(self, what: str = "a number") -> None:
        token = self.now()
        if token is None or token.kind != "number":
            raise self.misfit(what)
        self.place += 1

    def names(self) -> None:
        self.name()
        while self.takes(","):
            self.name()

    def kind(self) -> None:
        """A type, as a struct's field or a signal has it."""
        if self.takes("set"):
            self.take("<")
            self.kind()
            self.take(">")
        elif not self.takes("bool", "int"):
            self.name("a type")

    def interval(self) -> None:
        self.take("[", "an interval, as `[0,3]`,")
        self.number("digits")
        if self.takes(","):
            self.number("digits")
        self.take("]")

    def expression(self) -> None:
        self.operand()
        while True:
            if self.takes(*TIMED_INFIX):
                self.interval()
            elif not self.takes(*INFIX):
                return
            self.operand()

    def operand(self) -> None:
        while self.text() in (*TIMED_PREFIX, "!", "-"):
            timed = self.text() in TIMED_PREFIX
            self.place += 1
            if timed:
                self.interval()
        self.primary()
        while self.text() == ".":
            if self.tokens[self.place - 1].kind == "number":
                raise self.misfit("an operator or `;`")
            self.place += 1
            self.name("the name of a part")

    def primary(self) -> None:
        token = self.now()
        if self.text() in QUANTIFIERS:
            self.quantifier()
        elif self.text() in CLOSING:
            self.place += 1
            self.arguments(CLOSING[token.text if token else ""], several=self.tokens[self.place - 1].text == "{")
        elif self.takes("true", "false") or token is not None and token.kind == "number":
            self.place += token is not None and token.kind == "number"
        else:
            self.name("an operand")
            if self.takes("("):
                self.arguments(")", several=True)

    def arguments(self, closing: str, several: bool) -> None:
        self.expression()
        while several and self.takes(","):
            self.expression()
        self.take(closing, f"an operator or `{closing}`")

    def quantifier(self) -> None:
        counting = self.text() in COUNTING
        self.place += 1
        self.take("(")
        self.name("a name for the member")
        self.take(":")
        self.expression()
        if counting:
            self.take(",", "`,` and a number")
            self.number()
        self.take(")", "an operator or `)`")
        self.take("(", "`(` and what is asked of each member")
        self.arguments(")", several=False)

    def end(self, what: str = "an operator or `;`") -> None:
        self.take(";", what)
        if self.now():
            raise self.misfit("a new item")


def struct(walk: Walk) -> None:
    walk.name("the name of a struct")
    walk.take(":")
    walk.take("{")
    while True:
        walk.names()
        walk.take(":")
        walk.kind()
        walk.take(";")
        if walk.takes("}"):
            break
    walk.end("`;`")


def inputs(walk: Walk) -> None:
    walk.names()
    walk.take(":", "`:` and a type")
    walk.kind()
    walk.end("`;`")


def definition(walk: Walk) -> None:
    walk.name()
    walk.take(":=")
    walk.expression()
    walk.end()


def output(walk: Walk) -> None:
    if len(walk.tokens) > 1 and walk.tokens[1].text == ":":
        walk.name("a label")
        walk.place += 1
    walk.expression()
    if walk.takes("=>"):
        walk.expression()
    walk.end()


WAYS = {"STRUCT": struct, "INPUT": inputs, "DEFINE": definition, "FTSPEC": output, "PTSPEC": output}


def misfit(item: Item) -> Optional[Misfit]:
    """The first token of an item that fits nothing, where one is found."""
    walk = Walk(item.tokens)
    if item.section not in WAYS:
        return Misfit(item.tokens[0], None, "a section, as `FTSPEC`,")
    try:
        WAYS[item.section](walk)
    except Misfit as found:
        return found
    except RecursionError:
        return None
    return None
