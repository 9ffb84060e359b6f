"""Specifications of C2PO 3, item by item, into this language.

What reads alike in both is kept. What has another form here is rewritten; what has none, or what both might read
differently, is left out with its line and the reason, and so is what uses it: an operator in time is in brackets, or
ends what is in some. c2po has the last word on the result.
"""

from __future__ import annotations

import re
import tempfile
from dataclasses import dataclass, field, replace
from pathlib import Path
from typing import Iterator, Optional

from r2u2tools.common.programs import program, ran
from r2u2tools.convert.scaling import Scales, Unscaled, entry, scaled

SECTIONS = ("STRUCT", "INPUT", "DEFINE", "ATOMIC", "FTSPEC", "PTSPEC")
FOREIGN = {"ENUM": "enumerations: define a number for each name"}
TOKEN = re.compile(
    r"(?P<blank>[ \t\r\n]+)|(?P<comment>--[^\n]*)|(?P<float>[0-9]+\.[0-9]+)|(?P<word>[A-Za-z_]\w*)|(?P<number>[0-9]+)"
    r"|(?P<sign><->|->|=>|:=|==|!=|<=|>=|<<|>>|&&|\|\||[(){}\[\],;:.!<>+\-*/%~&|^])|(?P<other>.)",
    re.ASCII | re.S,
)
QUANTIFIERS = ("foreach", "forsome", "forexactly", "foratleast", "foratmost")
UNARY, BINARY = ("F", "G", "O", "H"), ("U", "R", "S", "xor")
LEVELS = (("<->", "->"), ("||",), ("&&",), ("==", "!=", "<", "<=", ">", ">="), ("+", "-"), ("*", "/", "%"))
COMPARED = 3
# Where an operand may begin or end that no grammar reads otherwise.
EDGES = ("", "(", ")", "{", "}", ",")
UNSURE = {"X": "no next here: F[1,1] is the row after", "T": "no trigger here: write it by S and !"}
BITS = ("~", "&", "|", "^", "<<", ">>")
WIDEST = 1048576


ATOMIC = re.compile(
    r"(\w+) (?::=|:) (\w+) \( (\w+)(?: , ((?:- )?[0-9.]+))? \) (==|!=|<=|>=|<|>) ((?:- )?(?:[0-9.]+|[A-Za-z_]\w*))", re.ASCII
)
# Of each filter of atomic checkers: the end of its signal's name, and the keys of its entry.
FILTERS = {
    "rate": ("rate", 'take = "difference"\n'), "movavg": ("mean", 'take = "mean"\nwindow = {constant}\n'),
    "abs_diff_angle": ("angle", 'offset = -{constant}\nwrapped = 360\ntake = "absolute"\n'), "int": ("", ""), "float": ("", ""), "bool": ("", ""),
}


class Unfit(Exception):
    """Why an item can't be taken."""

    def __init__(self, why: str, line: int) -> None:
        super().__init__(why)
        self.line = line


@dataclass
class Token:
    kind: str
    text: str
    line: int


@dataclass
class Item:
    """An item with the comments before it: its section, its tokens, and what became of it."""

    section: str
    tokens: list[Token]
    comments: list[str] = field(default_factory=list)
    text: str = ""
    refusal: str = ""
    why: str = ""
    line: int = 0

    def names(self) -> list[str]:
        """Returns the names that the item declares."""
        words = [token.text for token in self.tokens]
        sign = ":=" if self.section in ("DEFINE", "ATOMIC") else ":"
        if self.section in ("FTSPEC", "PTSPEC") or sign not in words:
            return []
        return [word for word in words[: words.index(sign)] if word != ","]


def items_of(text: str) -> Iterator[Item]:
    """Yields the items of a specification in their order; the last may have comments alone."""
    section, line, depth = "", 1, 0
    tokens: list[Token] = []
    comments: list[str] = []
    for found in TOKEN.finditer(text):
        token = Token(found.lastgroup or "", found[0], line)
        line += found[0].count("\n")
        if token.kind == "comment":
            comments.append(token.text)
        elif token.kind != "blank":
            if not tokens and (token.text in SECTIONS or token.text in FOREIGN):
                section = token.text
                continue
            depth += (token.text == "{") - (token.text == "}")
            tokens.append(token)
            if token.text == ";" and depth <= 0:
                yield Item(section, tokens[:-1], comments, line=tokens[0].line)
                tokens, comments, depth = [], [], 0
    yield Item(section, tokens, comments, line=tokens[0].line if tokens else line)


class Expression:
    """Reads an expression and writes it in this language."""

    def __init__(self, tokens: list[Token], structs: set[str], mission: Optional[int]) -> None:
        self.tokens, self.place = tokens, 0
        self.structs, self.mission = structs, mission

    def next(self) -> str:
        return self.tokens[self.place].text if self.place < len(self.tokens) else ""

    def unfit(self, why: str) -> Unfit:
        return Unfit(why, self.tokens[min(self.place, len(self.tokens) - 1)].line)

    def take(self, text: str = "") -> str:
        found = self.next()
        if text and found in BITS:
            raise self.unfit(f"bits: no {found} here")
        if not found or (text and found != text):
            raise self.unfit(f"{text or 'more'} is expected" + (f" in place of {found}" if found else " at the end"))
        self.place += 1
        return found

    def whole(self) -> str:
        """Returns the expression of all tokens."""
        text = self.level(0)
        if self.next() in BITS:
            raise self.unfit(f"bits: no {self.next()} here")
        if self.next():
            unsure = next((UNSURE[it] for it in (self.next(), self.tokens[self.place - 1].text) if it in UNSURE), "")
            raise self.unfit(unsure or f"{self.next()} isn't understood")
        return text

    def level(self, k: int) -> str:
        """Returns an expression of operators of the level k, and of tighter ones."""
        if k == len(LEVELS):
            return self.binary_in_time()
        began = self.place
        text, before = self.level(k + 1), ""
        while self.next() in LEVELS[k]:
            sign = self.next()
            if before and k in (0, COMPARED):
                raise self.unfit(f"brackets are needed: {before} and then {sign}")
            self.mixed(began, k, sign)
            self.take()
            text = f"{text} {sign} {self.level(k + 1)}"
            before = sign
        return text

    def mixed(self, began: int, k: int, sign: str) -> None:
        """Refuses a denial just before a comparison or a sum."""
        if k >= COMPARED and self.tokens[began].text == "!":
            raise self.unfit(f"brackets are needed: ! and then {sign}")

    def binary_in_time(self) -> str:
        """Returns an operator with two operands whose place among others no two grammars need agree on: it is alone."""
        began = self.place
        text = self.prefix()
        if self.next() not in BINARY:
            return text
        sign, before = self.next(), self.tokens[began - 1].text if began else ""
        self.single(began, sign)
        self.take()
        bounds, right = "" if sign == "xor" else self.interval(sign), self.place
        other = self.prefix()
        self.single(right, sign)
        if self.next() in BINARY:
            raise self.unfit(f"brackets are needed around the operands of {sign}")
        if before not in EDGES or self.next() not in EDGES:
            raise self.unfit(f"brackets are needed around {sign} and its operands")
        return f"!({text} <-> {other})" if sign == "xor" else f"{text} {sign}{bounds} {other}"

    def single(self, began: int, sign: str) -> None:
        """Refuses an operand that another reading might cut: it is a name with fields, a number, or in brackets."""
        if began >= len(self.tokens) or self.tokens[began].text in ("!", "-", *UNARY):
            raise self.unfit(f"brackets are needed around the operands of {sign}")

    def interval(self, sign: str) -> str:
        """Returns an interval, where the mission time is a number that was given."""
        if self.next() != "[":
            return f"[0,{self.bound('M', sign)}]"
        self.take("[")
        ends = [self.bound(self.take(), sign)]
        while self.next() == ",":
            self.take(",")
            ends.append(self.bound(self.take(), sign))
        self.take("]")
        if len(ends) > 2:
            raise self.unfit(f"an interval of {len(ends)} numbers")
        return f"[{','.join(ends if len(ends) == 2 else ['0', *ends])}]"

    def bound(self, text: str, sign: str) -> str:
        if text == "M":
            if self.mission is None:
                raise self.unfit(f"{sign} over the mission time: --mission N gives it a number")
            text = str(self.mission)
        if not text.isdigit():
            raise self.unfit(f"{text} isn't a number of an interval")
        if int(text) > WIDEST:
            raise self.unfit(f"{text}: an interval ends at {WIDEST} at the latest")
        return text

    def prefix(self) -> str:
        sign = self.next()
        if sign in ("!", "-"):
            return self.take() + self.prefix()
        if sign in UNARY:
            self.take()
            text = f"{sign}{self.interval(sign)} {self.prefix()}"
            if self.next() not in EDGES:
                raise self.unfit(f"brackets are needed: {sign} and then {self.next()}")
            return text
        return self.primary()

    def primary(self) -> str:
        token = self.tokens[self.place] if self.place < len(self.tokens) else Token("", "", 0)
        if token.kind == "float":
            raise self.unfit(f"float: {token.text} isn't an integer; scale it")
        if token.text in QUANTIFIERS:
            text = self.quantifier()
        elif token.text in ("(", "{"):
            text = self.take() + self.several() + self.take(")" if token.text == "(" else "}")
        elif token.kind in ("word", "number"):
            text = self.take()
            if self.next() == "(":
                if text not in self.structs:
                    self.place -= 1
                    raise self.unfit(f"no function {text} here")
                text += self.take("(") + self.several() + self.take(")")
        else:
            raise self.unfit(f"bits: no {token.text} here" if token.text in BITS else f"{token.text or 'the end'} isn't understood")
        while self.next() in (".", "["):
            if self.next() == "[":
                raise self.unfit("arrays: no index here")
            text += self.take() + self.take()
        return text

    def several(self) -> str:
        """Returns the expressions between brackets."""
        found = [] if self.next() in (")", "}") else [self.level(0)]
        while self.next() == ",":
            self.take(",")
            found.append(self.level(0))
        return ", ".join(found)

    def quantifier(self) -> str:
        kind = self.take()
        self.take("(")
        name = self.take()
        self.take(":")
        text = f"{kind}({name}: {self.level(0)}"
        if self.next() == ",":
            self.take(",")
            text += f", {self.level(0)}"
        self.take(")")
        self.take("(")
        text += f")({self.level(0)}"
        return text + self.take(")")


class Importer:
    """Takes one specification."""

    def __init__(self, text: str, mission: Optional[int] = None, scales: Optional[Scales] = None) -> None:
        self.items, self.mission = list(items_of(text)), mission
        self.scales = scales or Scales()
        self.lost: dict[str, int] = {}
        self.structs: set[str] = set()
        # The kinds of inputs, definitions that are decimals, and the signals of atomic checkers with their entries.
        self.inputs: dict[str, str] = {}
        self.decimals: dict[str, str] = {}
        self.derived: dict[str, str] = {}

    def run(self) -> str:
        """Returns the text in this language, which c2po accepts."""
        for _ in range(len(self.items) + 1):
            self.translate()
            text, places = self.written()
            line, why = refusal_of(text)
            if not why:
                return text
            item = next((it for it, (first, last) in places if first <= line <= last), None)
            if item is None or item.refusal:
                return text
            item.refusal = f"c2po: {why}"
        return text

    def translate(self) -> None:
        self.lost, self.structs, self.inputs, self.decimals, self.derived = {}, set(), {}, {}, {}
        for item in self.items:
            item.why, item.text = "", ""
            if not item.tokens:
                continue
            try:
                item.text = self.taken(item)
                if item.section == "STRUCT":
                    self.structs |= set(item.names())
            except Unscaled as fault:
                item.why = str(fault)
                self.lost.update((name, item.line) for name in item.names())
            except Unfit as unfit:
                item.why, item.line = str(unfit), unfit.line
                self.lost.update((name, unfit.line) for name in item.names())

    def taken(self, item: Item) -> str:
        """Returns an item in this language."""
        first = item.tokens[0]
        if item.section in FOREIGN:
            raise Unfit(FOREIGN[item.section], first.line)
        if not item.section:
            raise Unfit("no section begins here", first.line)
        for token in item.tokens:
            if token.kind == "other":
                raise Unfit(f"the character {token.text!r}", token.line)
            if token.text in self.lost and token.text not in item.names():
                raise Unfit(f"it uses {token.text}, of line {self.lost[token.text]}", token.line)
        if item.refusal:
            raise Unfit(item.refusal, first.line)
        if item.section in ("STRUCT", "INPUT"):
            return self.declaration(item)
        if item.section == "ATOMIC":
            return self.atomic(item)
        return self.formula(item)

    def whole_type(self, item: Item, k: int) -> str:
        """Returns `int` in the place of `float`, at a place of a declaration, if each of its names has a scale."""
        tokens, names = item.tokens, list[str]()
        for token in reversed(tokens[:k]):
            if token.text in (";", "{"):
                break
            names += [token.text] if token.kind == "word" else []
        lost = next((name for name in reversed(names) if name not in self.scales.factors), "")
        if lost:
            raise Unfit(f"float: --scale {lost}=1000, or --signals FILE, makes {lost} an integer", tokens[k].line)
        if item.section == "STRUCT" and len(set(self.scales.factors.values())) > 1:
            raise Unfit("float in a struct: all scales have to be the same then", tokens[k].line)
        return "int"

    def atomic(self, item: Item) -> str:
        """Returns an atomic checker as an input, whose signal is an entry of --write-signals, and a definition."""
        line = item.tokens[0].line
        found = ATOMIC.fullmatch(" ".join(token.text for token in item.tokens))
        if not found:
            raise Unfit("atomic checkers have the form NAME := FILTER(SIGNAL) COMPARISON NUMBER here", line)
        name, kind, signal, constant, sign, bound = (part or "" for part in found.groups())
        if kind not in FILTERS:
            raise Unfit(f"no filter {kind} here", line)
        if (kind in ("movavg", "abs_diff_angle")) != bool(constant) or signal not in self.inputs:
            raise Unfit(f"{kind} of {signal} isn't understood", line)
        if kind == "bool":
            if sign not in ("==", "!=") or bound not in ("0", "1", "true", "false"):
                raise Unfit(f"bool {sign} {bound} isn't understood", line)
            return f"DEFINE\n  {name} := {'' if (sign == '==') == (bound in ('1', 'true')) else '!'}{signal};"
        label, head = signal, ""
        if FILTERS[kind][0]:
            label, head = self.derive(kind, signal, constant, line)
        text = self.formula(Item("DEFINE", self.tokens_of(item, [name, ":=", label, sign, *bound.split()])))
        return f"{head}DEFINE\n  {text};"

    def derive(self, kind: str, signal: str, constant: str, line: int) -> tuple[str, str]:
        """Returns the input for a filter of a signal, and its declaration if it is new."""
        if not self.scales.writes:
            raise Unfit(f"{kind}: --write-signals FILE says where its signal goes", line)
        if kind == "movavg" and not constant.isdigit():
            raise Unfit(f"movavg over {constant}: a number of rows is needed", line)
        end, keys = FILTERS[kind]
        constant = constant.replace(" ", "")
        label = "_".join([signal, end, *([re.sub("[^0-9]", "_", constant)] if constant else [])])
        by = self.scales.factors.get(signal)
        if by is not None:
            self.scales.factors[label] = by
            keys = f"scale = {by}\n{keys}"
        head = "" if label in self.derived else f"INPUT\n  {label}: int;\n"
        self.derived[label] = f"[{label}]\nfrom = \"{signal}\"\n" + keys.format(constant=constant).replace("--", "")
        return label, head

    def tokens_of(self, item: Item, texts: list[str]) -> list[Token]:
        """Returns texts as tokens at the line of an item."""
        return [Token(TOKEN.match(text).lastgroup or "", text, item.tokens[0].line) for text in texts]  # type: ignore[union-attr]

    def rescaled(self, tokens: list[Token]) -> list[Token]:
        """Returns tokens in which comparisons with scaled signals have scaled constants."""
        tokens = [replace(it, text=self.decimals[it.text], kind="float") if it.text in self.decimals else it for it in tokens]
        parts = scaled([token.text for token in tokens], self.scales)
        return [part for token, texts in zip(tokens, parts) for part in ([token] if texts == [token.text] else self.tokens_of(Item("", [token]), texts))]

    def entries(self) -> list[str]:
        """Returns an entry of a file of signals for each input that isn't in one."""
        known, factors = self.scales.known, self.scales.factors
        return [entry(name, kind, factors.get(name)) for name, kind in self.inputs.items() if name not in known] + list(self.derived.values())

    def declaration(self, item: Item) -> str:
        """Returns an item of STRUCT or INPUT, whose forms are alike."""
        for token in item.tokens:
            if token.text == "[":
                raise Unfit("arrays have no type here", token.line)
            if token.text == "<" and item.section == "INPUT":
                raise Unfit("sets have no type of inputs", token.line)
        text = ""
        for k, token in enumerate(item.tokens):
            word = self.whole_type(item, k) if token.text == "float" else token.text
            glued = not text or word in ",:;.<>" or text.endswith("<")
            text += word if glued else f" {word}"
        if item.section == "INPUT":
            self.inputs.update((name, item.tokens[-1].text) for name in item.names())
        return text

    def formula(self, item: Item) -> str:
        """Returns a definition, a formula or a contract."""
        words = [token.text for token in item.tokens]
        sign = ":=" if item.section == "DEFINE" else ":"
        named = len(words) > 1 and words[1] == sign
        if item.section == "DEFINE" and not named:
            raise Unfit("a definition is NAME := EXPRESSION", item.tokens[0].line)
        head = f"{words[0]} :{'=' * (sign == ':=')} ".replace(" : ", ": ") if named else ""
        body = item.tokens[2:] if named else item.tokens
        if item.section == "DEFINE" and len(body) == 1 and body[0].kind == "float":
            self.decimals[words[0]] = body[0].text
            return f"-- {words[0]} := {body[0].text} is in the comparisons"
        body = self.rescaled(body)
        depth, cuts = 0, [-1]
        for k, token in enumerate(body):
            depth += (token.text in "([{") - (token.text in ")]}")
            if token.text == "=>" and not depth:
                cuts.append(k)
        parts = [body[one + 1 : other] for one, other in zip(cuts, [*cuts[1:], len(body)])]
        if len(parts) > 2 or not all(parts):
            raise Unfit("=> has two sides, once", item.tokens[0].line)
        return head + " => ".join(Expression(part, self.structs, self.mission).whole() for part in parts)

    def written(self) -> tuple[str, list[tuple[Item, tuple[int, int]]]]:
        """Returns the text with comments, and the lines of each item in it."""
        lines, places, section = [], [], ""
        for item in self.items:
            lines += item.comments
            if item.tokens and not item.why:
                first = len(lines) + 1
                if item.section == "ATOMIC":
                    lines += item.text.splitlines()
                    section = "DEFINE"
                    places.append((item, (first, len(lines))))
                    continue
                if item.section != section and not item.text.startswith("--"):
                    section = item.section
                    lines.append(section)
                lines.append(f"  {item.text}" + ";" * (not item.text.startswith("--")))
                places.append((item, (len(lines), len(lines))))
            elif item.tokens:
                source = " ".join(token.text for token in item.tokens)
                lines.append(f"-- line {item.line} isn't taken: {item.why}: {item.section} {source};")
        return "\n".join([*lines, ""]), places

    def refused(self) -> list[tuple[int, str]]:
        """Returns what wasn't taken: line and reason."""
        return [(item.line, item.why) for item in self.items if item.why]

    def renumbered(self) -> int:
        """Returns the line of the first formula that goes by its number and has another one now, or 0."""
        lost = False
        for item in self.items:
            if item.tokens and item.section in ("FTSPEC", "PTSPEC"):
                labelled = len(item.tokens) > 1 and item.tokens[1].text == ":"
                if lost and not item.why and not labelled:
                    return item.line
                lost |= bool(item.why)
        return 0


def refusal_of(text: str) -> tuple[int, str]:
    """Returns the line and the reason for which c2po refuses a text; no reason where it doesn't."""
    with tempfile.TemporaryDirectory() as folder:
        path = Path(folder, "taken.c2po")
        path.write_text(text, encoding="utf-8")
        status, _, said = ran([program("c2po"), "-o", str(Path(folder, "taken.obs")), str(path)])
    found = re.fullmatch(r"c2po: line (\d+): (.*)", said)
    if not status:
        return 0, ""
    return (int(found[1]), found[2]) if found else (0, said)
