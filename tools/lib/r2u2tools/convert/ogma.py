"""Requirements in the JSON that Ogma reads: a component with its variables, and formulas of past time in ptLTL or CoCoSpec.

Every operator is written with its brackets, so that nothing depends on which binds closer; two operators of which that
would matter are refused where the text has no brackets.
"""

from __future__ import annotations

import re
from typing import Any, Optional

from r2u2tools.convert.fret import SIGNS, WIDEST, Kinds, Requirement, Unfit, bracketed, label_of
from r2u2tools.convert.scaling import Unscaled, scaled

TOKEN = re.compile(r"\s*([A-Za-z_]\w*|[0-9]+(?:\.[0-9]+)?|<=>|<->|=>|->|<=|>=|!=|<>|==|&&|\|\||[=<>!&|()+\-*/%~,\[\]])", re.ASCII)
BACK = ("H", "O", "Y", "Z")
AHEAD = ("F", "G", "X", "U", "V", "R", "LAST")
LEVELS = (("->", "<->"), ("||",), ("&&",), ("S", "T"), ("==", "!=", "<", "<=", ">", ">="), ("+", "-"), ("*", "/", "%"))
LOGIC = 4
KINDS = {"bool": "bool", "boolean": "bool", "int": "int", "integer": "int"}


def tokens_of(text: str) -> list[str]:
    found, place, text = [], 0, text.strip()
    while place < len(text):
        part = TOKEN.match(text, place)
        if not part:
            raise Unfit(f"{text[place:place + 10].strip()!r} isn't understood")
        token = SIGNS.get(part[1], part[1])
        found.append({"<>": "!="}.get(token, token))
        place = part.end()
    return found


class Reader:
    """Reads one formula. In CoCoSpec `->` is Lustre's and `=>` implies."""

    def __init__(self, text: str, kinds: Kinds, is_lustre: bool) -> None:
        if is_lustre and re.search(r"(?<![<-])->", text):
            raise Unfit("-> of Lustre: the value of the first row comes from elsewhere")
        try:
            self.tokens = [part for parts in scaled(tokens_of(text), kinds.scales) for part in parts]
        except Unscaled as fault:
            raise Unfit(str(fault)) from None
        self.place, self.kinds = 0, kinds

    def next(self) -> str:
        return self.tokens[self.place] if self.place < len(self.tokens) else ""

    def take(self, text: str = "") -> str:
        found = self.next()
        if not found or text and found != text:
            raise Unfit(f"{text or 'more'} is expected" + (f" in place of {found}" if found else " at the end"))
        self.place += 1
        return found

    def whole(self) -> str:
        """Returns the formula; historically around the whole is left out, since each row has a verdict."""
        while bracketed(self.tokens):
            self.tokens = self.tokens[1:-1]
        if self.next() == "H" and self.tokens[1:2] == ["("] and self.closes(1) == len(self.tokens) - 1:
            self.place = 1
        text = self.level(0)
        if self.next():
            raise Unfit(f"{self.next()} isn't understood")
        return text

    def closes(self, place: int) -> int:
        """Returns the place of the bracket that closes the one at a place."""
        depth = 0
        for k in range(place, len(self.tokens)):
            depth += (self.tokens[k] == "(") - (self.tokens[k] == ")")
            if not depth:
                return k
        return -1

    def level(self, k: int) -> str:
        """Returns an expression of operators of the level k and of tighter ones."""
        if k == len(LEVELS):
            return self.prefix()
        text, before = self.level(k + 1), ""
        while self.next() in LEVELS[k]:
            sign = self.take()
            if before and k in (0, 3, 4):
                raise Unfit(f"brackets are needed: {before} and then {sign}")
            before = sign
            bounds = self.bounds() if sign in ("S", "T") else ""
            other = self.level(k + 1)
            text = f"!(!{text} S{bounds} !{other})" if sign == "T" else f"({text} {sign}{bounds} {other})"
        return text

    def bounds(self) -> str:
        """Returns an interval: [<=n], [<n], [=n], [n], [m,n], or none, which is the widest."""
        if self.next() != "[":
            return f"[0,{WIDEST}]"
        self.take("[")
        sign = self.take() if self.next() in ("<=", "<", "==") else ""
        ends = [self.number()]
        if not sign and self.next() == ",":
            self.take(",")
            ends.append(self.number())
        self.take("]")
        first, last = (ends[0], ends[0]) if sign == "==" else (0, ends[0] - (sign == "<")) if len(ends) == 1 else (ends[0], ends[1])
        if last > WIDEST or first > last:
            raise Unfit(f"[{first},{last}] isn't an interval of at most {WIDEST} rows")
        return f"[{first},{last}]"

    def number(self) -> int:
        found = self.take()
        if not found.isdigit():
            raise Unfit(f"{found} isn't a number of rows")
        return int(found)

    def prefix(self) -> str:
        sign = self.next()
        if sign == "!":
            self.take()
            if self.next() not in ("(", "!") and self.tokens[self.place + 1 : self.place + 2] and self.tokens[self.place + 1] in LEVELS[LOGIC]:
                raise Unfit(f"brackets are needed: ! and then {self.tokens[self.place + 1]}")
            return f"!{self.prefix()}"
        if sign == "-":
            self.take()
            return f"(0 - {self.prefix()})"
        if sign in AHEAD:
            raise Unfit(f"{sign} looks ahead: only formulas of the past are taken")
        if sign in ("Y", "Z"):
            self.take()
            return f"({'O' if sign == 'Y' else 'H'}[1,1] {self.prefix()})"
        if sign in BACK:
            self.take()
            return f"({sign}{self.bounds()} {self.prefix()})"
        return self.primary()

    def primary(self) -> str:
        token = self.take()
        if token == "(":
            text = self.level(0)
            self.take(")")
            return text
        if token == "S":
            self.take("(")
            left = self.level(0)
            self.take(",")
            right = self.level(0)
            self.take(")")
            return f"({left} S[0,{WIDEST}] {right})"
        if token in ("true", "false") or token.isdigit():
            return token
        if token == "FTP":
            return "!(O[1,1] true)"
        if "." in token:
            raise Unfit(f"{token} isn't an integer, and no signal there has a scale: --scale or --signals")
        if not re.match(r"[A-Za-z_]", token) or self.next() == "(":
            raise Unfit(f"no function {token} here" if self.next() == "(" else f"{token} isn't understood")
        self.kinds.meet(token, None)
        return token


def component_of(document: Any) -> Optional[dict[str, Any]]:
    """Returns the component of a document that Ogma reads, or None."""
    for it in [document, *(document.values() if isinstance(document, dict) else [])]:
        if isinstance(it, dict) and isinstance(it.get("Requirements"), list):
            return it
    return None


def requirements_of(component: dict[str, Any], kinds: Kinds) -> list[Requirement]:
    """Returns the requirements of a component, and takes its variables."""
    for it in component.get("Other_variables") or component.get("Input_variables") or []:
        kind = str(it.get("type", "")).lower()
        kinds.given[str(it.get("name"))] = KINDS.get(kind, kind)
    definitions, labels, found = {}, set[str](), []
    for it in component.get("Internal_variables") or []:
        name = str(it.get("name"))
        kinds.given[name] = KINDS.get(str(it.get("type", "")).lower(), "bool")
        definitions[name] = str(it.get("assignmentLustre") or "")
    for k, record in enumerate(component["Requirements"]):
        id = " ".join(str(record.get("name") or "").split())
        made = Requirement(label_of(id or f"requirement_{k}", labels), " ".join(str(record.get("fretish") or "").split()), id)
        try:
            fill(made, record, kinds, definitions)
        except Unfit as unfit:
            made.why, made.definitions, made.formula = str(unfit), [], ""
        found.append(made)
    for name in definitions:
        kinds.found.pop(name, None)
    return found


def fill(made: Requirement, record: dict[str, Any], kinds: Kinds, definitions: dict[str, str]) -> None:
    """Reads the formula of one requirement, with the variables that the component defines."""
    text = str(record.get("ptLTL") or "")
    code = str(record.get("CoCoSpecCode") or "")
    if not text and not code:
        raise Unfit("it has no ptLTL and no CoCoSpecCode")
    reader = Reader(text or code, kinds, not text)
    made.formula = reader.whole()
    wanted, place = [it for it in dict.fromkeys(reader.tokens) if it in definitions], 0
    while place < len(wanted):
        inner = Reader(definitions[wanted[place]], kinds, True)
        body = inner.level(0)
        if inner.next():
            raise Unfit(f"{wanted[place]} is defined in FRET, by what isn't understood")
        name = f"{made.label}_{wanted[place]}"
        made.definitions.insert(0, f"{name} := {body};")
        wanted += [it for it in inner.tokens if it in definitions and it not in wanted]
        place += 1
    rename = re.compile(rf"\b({'|'.join(map(re.escape, wanted))})\b") if wanted else None
    if rename:
        made.formula = rename.sub(lambda it: f"{made.label}_{it[0]}", made.formula)
        made.definitions = [f"{text.partition(' := ')[0]} := {rename.sub(lambda it: f'{made.label}_{it[0]}', text.partition(' := ')[2])}" for text in made.definitions]
