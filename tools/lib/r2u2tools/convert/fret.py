"""Requirements of FRET's JSON, as formulas of the past by the tables of docs/reference/scopes.md.

Scope and condition become q, which opens, and r, which closes; the response is p. Each formula is false at the row at
which the requirement is broken. Fields of the JSON that aren't those known here, or that disagree, are refused: nothing is
taken for what it may mean.
"""

from __future__ import annotations

import re
from dataclasses import dataclass, field
from fractions import Fraction
from typing import Any, Optional

from r2u2tools.common.cli import ToolError
from r2u2tools.convert.scaling import Scales, Unscaled, entry, scaled
from r2u2tools.telemetry.numbers import fraction

WIDEST = 1048576
TOKEN = re.compile(r"\s*([A-Za-z_]\w*|[0-9]+(?:\.[0-9]+)?|<=>|<->|=>|->|<=|>=|!=|==|&&|\|\||[=<>!&|()+\-*/%~^,.])", re.ASCII)
SIGNS = {"&": "&&", "and": "&&", "|": "||", "or": "||", "not": "!", "~": "!", "=>": "->", "<=>": "<->", "=": "==", "TRUE": "true", "FALSE": "false"}
RESERVED = set("STRUCT INPUT DEFINE FTSPEC PTSPEC bool int set foreach forsome forexactly foratleast foratmost F G U R S O H".split())
EQUAL = ("==", "!=")
NUMERIC = (*EQUAL, "<", "<=", ">", ">=", "+", "-", "*", "/", "%")
SECONDS = {"microsecond": Fraction(1, 10**6), "millisecond": Fraction(1, 1000), "second": Fraction(1), "minute": Fraction(60), "hour": Fraction(3600)}
DURATION = re.compile(r"\b(within|for|after)\s+([0-9]+(?:\.[0-9]+)?)\s*([a-z]+?)s?\b", re.I)
# Of each kind of condition its first words, and the fields of the JSON that have its text.
CONDITIONS = {
    "regular": (("when", "if", "upon"), ("regular_condition", "pre_condition")),
    "holding": (("whenever",), ("holding_condition", "regular_condition", "pre_condition")),
}
BOOLS, INTEGERS = re.compile(r"bool(ean)?", re.I), re.compile(r"u?int(eger)?(8|16|32)?|unsigned integer", re.I)

# By timing: the formula in the whole run, from a first row on, and from the rows of q on, up to r where there is one; s is
# the stop of until and before.
PENDING = "(!{p} && !{r}) S[0,1048576] ({q} && !{p} && !{r})"
UNMET = "(!{p} && !{s}) S[0,1048576] ({q} && !{p} && !{s})"
UNMET_UNTIL = "(!{p} && !{s} && !{r}) S[0,1048576] ({q} && !{p} && !{s} && !{r})"
GLOBALLY = {
    "next": "O[1,1] first -> {p}", "until": "H[0,1048576] !{s} -> {p}",
    "before": "{s} -> !first && !(O[1,1] (" + UNMET.replace("{q}", "first") + "))",
    "always": "{p}", "immediately": "first -> {p}", "within": "O[{n},{n}] first -> O[0,{n}] {p}", "for": "O[0,{n}] first -> {p}",
    "after": "(O[0,{n}] first -> !{p}) && (O[{m},{m}] first -> {p})",
}
BEFORE = {
    "next": "O[1,1] first && H[0,1] !{r} -> {p}", "until": "H[0,1048576] (!{r} && !{s}) -> {p}",
    "before": "{s} && !{r} -> !first && !(O[1,1] (" + UNMET_UNTIL.replace("{q}", "first") + "))",
    "eventually": "{r} -> !(O[1,1] (" + PENDING.replace("{q}", "first") + "))",
    "always": "H[0,1048576] !{r} -> {p}", "immediately": "first && !{r} -> {p}",
    "within": "O[{n},{n}] first && H[0,{n}] !{r} -> O[0,{n}] {p}", "for": "O[0,{n}] first && H[0,{n}] !{r} -> {p}",
    "after": "(O[0,{n}] first && H[0,{n}] !{r} -> !{p}) && (O[{m},{m}] first && H[0,{m}] !{r} -> {p})",
}
AFTER = {
    "next": "O[1,1] {q} -> {p}", "until": "!{s} S[0,1048576] ({q} && !{s}) -> {p}", "before": "{s} -> !{q} && !(O[1,1] (" + UNMET + "))",
    "always": "O[0,1048576] {q} -> {p}", "immediately": "{q} -> {p}", "within": "O[{n},{n}] {q} -> O[0,{n}] {p}", "for": "O[0,{n}] {q} -> {p}",
    "after": "(O[0,{n}] {q} -> !{p}) && (O[{m},{m}] {q} -> {p})",
}
UNTIL = {
    "next": "O[1,1] {q} && H[0,1] !{r} -> {p}", "until": "(!{r} && !{s}) S[0,1048576] ({q} && !{r} && !{s}) -> {p}",
    "before": "{s} && !{r} -> !{q} && !(O[1,1] (" + UNMET_UNTIL + "))", "eventually": "{r} -> !(O[1,1] (" + PENDING + "))",
    "always": "!{r} S[0,1048576] ({q} && !{r}) -> {p}", "immediately": "{q} && !{r} -> {p}",
    "within": "O[{n},{n}] {q} && H[0,{n}] !{r} -> O[0,{n}] {p}", "for": "!{r} S[0,{n}] ({q} && !{r}) -> {p}",
    "after": "(!{r} S[0,{n}] ({q} && !{r}) -> !{p}) && (O[{m},{m}] {q} && H[0,{m}] !{r} -> {p})",
}


# By scope of `only`: the scope outside of it, and what a timing becomes there, where the requirement is denied.
OUTSIDE = {"onlyin": "notin", "onlybefore": "from", "onlyafter": "upto"}
DENIED = {"eventually": "always", "immediately": "immediately", "next": "next", "within": "for", "for": "within"}
# Functions of FRET with the number of their arguments.
FUNCTIONS = {"preBool": 2, "persisted": 2, "occurred": 2, "absReal": 1, "absInt": 1, "abs": 1}


class Unfit(Exception):
    """Why a requirement can't be taken."""


@dataclass
class Kinds:
    """The variables in the order in which they are met, as bool or int, and why some are neither."""

    found: dict[str, str] = field(default_factory=dict)
    given: dict[str, str] = field(default_factory=dict)
    defined: set[str] = field(default_factory=set)
    scales: Scales = field(default_factory=Scales)

    def take(self, model: dict[str, Any]) -> None:
        """Takes what the file says of a variable."""
        name = str(model.get("variable_name"))
        if model.get("dataType"):
            self.given[name] = kind_of(str(model["dataType"]))
        if model.get("assignment") or model.get("modeRequirement") or str(model.get("idType")).lower() == "function":
            self.defined.add(name)

    def meet(self, name: str, numeric: Optional[bool]) -> None:
        if name in self.defined:
            raise Unfit(f"{name} is defined in FRET: write a DEFINE")
        kind = self.given.get(name) or (self.found.get(name) if numeric is None else "int" if numeric else "bool")
        if kind is None:
            raise Unfit(f"whether {name} is a number isn't given")
        if name in self.scales.factors:
            kind = "int"
        if kind not in ("bool", "int"):
            raise Unfit(f"{name} is {kind}: --scale {name}=1000, or --signals FILE, makes it an integer")
        if self.found.setdefault(name, kind) != kind:
            raise Unfit(f"{name} is used as bool and as int")

    def entries(self) -> list[str]:
        """Returns an entry of a file of signals for each input that isn't in one."""
        return [entry(name, kind, self.scales.factors.get(name)) for name, kind in self.found.items() if name not in self.scales.known]


def kind_of(text: str) -> str:
    return "bool" if BOOLS.fullmatch(text) else "int" if INTEGERS.fullmatch(text) else text


def tokens_of(text: str) -> list[str]:
    found, place, text = [], 0, text.strip()
    while place < len(text):
        part = TOKEN.match(text, place)
        if not part:
            raise Unfit(f"{text[place:place + 10].strip()!r} isn't understood")
        found.append(part[1])
        place = part.end()
    return found


def formula(text: str, kinds: Kinds) -> str:
    """Returns a condition or response in this language, in brackets where it isn't one name."""
    tokens = [SIGNS.get(token, token) for token in tokens_of(text)]
    while bracketed(tokens):
        tokens = tokens[1:-1]
    try:
        parts = scaled(without_functions(tokens, kinds), kinds.scales)
    except Unscaled as fault:
        raise Unfit(str(fault)) from None
    tokens = [token for part in parts for token in part]
    refuse_doubts(tokens)
    for k, token in enumerate(tokens):
        if "." in token and token != ".":
            raise Unfit(f"{token} isn't an integer, and no signal there has a scale: --scale or --signals")
        if token in ("xor", "^", ".", ",", "if", "then") or token in RESERVED:
            raise Unfit(f"{token} isn't in the language here")
        if re.match(r"[A-Za-z_]", token) and token not in ("true", "false"):
            if tokens[k + 1 : k + 2] == ["("]:
                raise Unfit(f"no function {token} here")
            kinds.meet(token, is_number(tokens, k))
    if not tokens:
        raise Unfit("an empty formula")
    return tokens[0] if len(tokens) == 1 else f"({spaced(tokens)})"


def without_functions(tokens: list[str], kinds: Kinds) -> list[str]:
    """Returns the tokens with each call of a known function as one token in brackets."""
    found, place = list[str](), 0
    while place < len(tokens):
        name = tokens[place]
        if name not in FUNCTIONS or tokens[place + 1 : place + 2] != ["("]:
            found.append(name)
            place += 1
            continue
        parts, place = arguments(tokens, place + 1)
        if len(parts) != FUNCTIONS[name]:
            raise Unfit(f"{name} has {FUNCTIONS[name]} argument{'s' * (FUNCTIONS[name] > 1)}")
        if name.startswith("abs"):
            text, place = absolute(name, parts[0], tokens, found, place, kinds)
        else:
            text = of_the_past(name, parts, kinds)
        found.append(text)
    return found


def arguments(tokens: list[str], place: int) -> tuple[list[list[str]], int]:
    """Returns the arguments of a call whose bracket opens at a place, and the place after it."""
    parts, depth = [list[str]()], 0
    for k in range(place, len(tokens)):
        token = tokens[k]
        depth += (token == "(") - (token == ")")
        if not depth:
            return parts, k + 1
        if token == "," and depth == 1:
            parts.append([])
        elif k > place:
            parts[-1].append(token)
    raise Unfit("a bracket isn't closed")


def of_the_past(name: str, parts: list[list[str]], kinds: Kinds) -> str:
    """Returns preBool, persisted or occurred as a formula in brackets."""
    body, head = formula(" ".join(parts[1]), kinds), " ".join(parts[0])
    if name == "preBool":
        if head not in ("true", "false"):
            raise Unfit(f"preBool begins with {head}, which isn't true or false")
        return f"(O[1,1] {body})" if head == "false" else f"!(O[1,1] !{body})"
    if not head.isdigit() or int(head) >= WIDEST:
        raise Unfit(f"{name}: {head} isn't a number of rows")
    return f"({'H' if name == 'persisted' else 'O'}[0,{head}] {body})"


def absolute(name: str, body: list[str], tokens: list[str], before: list[str], place: int, kinds: Kinds) -> tuple[str, int]:
    """Returns a comparison of an absolute value with a number that isn't negative, and the place after it."""
    sign, bound, after = (tokens[place : place + 3] + ["", "", ""])[:3]
    edges = ("", "(", ")", "&&", "||", "->", "<->")
    if sign not in ("<", "<=", ">", ">=") or not re.fullmatch(r"[0-9.]+", bound) or after not in edges or (before[-1:] or [""])[0] not in edges:
        raise Unfit(f"{name} is taken where it is compared with a number on its right alone")
    body = without_functions(body, kinds)
    join = "&&" if sign.startswith("<") else "||"
    text = f"({' '.join(body)}) {sign} {bound} {join} 0 - ({' '.join(body)}) {sign} {bound}"
    return formula(text, kinds), place + 2


def refuse_doubts(tokens: list[str]) -> None:
    """Refuses what two grammars may read in two ways: implications in a row, and a denial before a comparison."""
    arrows = [0]
    for k, token in enumerate(tokens):
        if token == "(":
            arrows.append(0)
        elif token == ")" and len(arrows) > 1:
            arrows.pop()
        arrows[-1] += token in ("->", "<->")
        if arrows[-1] > 1:
            raise Unfit(f"brackets are needed: {token} and another one")
        if token == "!" and any(sign in NUMERIC for sign in tokens[k + 2 : k + 3]):
            raise Unfit(f"brackets are needed: ! and then {tokens[k + 2]}")


def bracketed(tokens: list[str]) -> bool:
    """Returns whether one pair of brackets is around all."""
    depth = 0
    for k, token in enumerate(tokens):
        depth += (token == "(") - (token == ")")
        if depth <= 0:
            return k > 0 and k == len(tokens) - 1
    return False


def is_number(tokens: list[str], k: int) -> Optional[bool]:
    """Returns whether a name is next to a sign of arithmetic or a comparison, also through brackets around it.

    Next to `=` it is what the other side is: None where that is a name too.
    """
    before, after = k - 1, k + 1
    while before >= 0 and after < len(tokens) and tokens[before] == "(" and tokens[after] == ")":
        before, after = before - 1, after + 1
    signs = [tokens[place] if 0 <= place < len(tokens) else "" for place in (before, after)]
    if not set(signs) & set(NUMERIC):
        return False
    if set(signs) & set(NUMERIC) - set(EQUAL):
        return True
    other = "".join(tokens[after + 1 : after + 2] if signs[1] in EQUAL else tokens[max(0, before - 1) : before])
    return True if other.isdigit() or other == "-" else False if other in ("true", "false") else None


def spaced(tokens: list[str]) -> str:
    text = ""
    for token in tokens:
        glued = not text or text.endswith(("(", "!")) or token == ")"
        text += token if glued else f" {token}"
    return text


@dataclass
class Requirement:
    """One requirement: its label, its text, and its formula with definitions, or why there is none."""

    label: str
    text: str
    id: str = ""
    definitions: list[str] = field(default_factory=list)
    formula: str = ""
    why: str = ""


def label_of(id: str, labels: set[str]) -> str:
    """Returns a label for the id of a requirement, unlike those so far."""
    label = re.sub(r"[^A-Za-z0-9_]", "_", id)[:56]
    label = label if re.match(r"[A-Za-z_]", label) and label not in RESERVED else f"r_{label}"
    while label in labels:
        label += "_"
    labels.add(label)
    return label


class Importer:
    """Takes the requirements of one file."""

    def __init__(self, document: Any, rate: Optional[Fraction], kinds: Kinds) -> None:
        if isinstance(document, dict):
            records, models = document.get("requirements"), document.get("modelDocs") or document.get("variables") or []
        else:
            records, models = document, []
        if not isinstance(records, list) or not all(isinstance(it, dict) for it in records):
            raise ToolError("not FRET's JSON: a list of requirements, an object that has one, or a component for Ogma")
        self.records: list[dict[str, Any]] = records
        self.rate, self.kinds = rate, kinds
        self.labels: set[str] = set()
        for it in models if isinstance(models, list) else []:
            if isinstance(it, dict):
                self.kinds.take(it)

    def run(self) -> list[Requirement]:
        return [self.one(record, k) for k, record in enumerate(self.records)]

    def one(self, record: dict[str, Any], k: int) -> Requirement:
        """Returns one requirement, or why it isn't taken."""
        id = " ".join(str(record.get("reqid") or "").split())
        made = Requirement(label_of(str(record.get("reqid") or f"requirement_{k}"), self.labels), " ".join(str(record.get("fulltext", "")).split()), id)
        kept = dict(self.kinds.found)
        try:
            meaning = record.get("semantics")
            if not isinstance(meaning, dict) or not meaning:
                raise Unfit("it has no semantics")
            self.fill(made, meaning)
        except Unfit as unfit:
            made.why, made.definitions, made.formula, self.kinds.found = str(unfit), [], "", kept
        return made

    def fill(self, made: Requirement, meaning: dict[str, Any]) -> None:
        label = made.label
        response = str(meaning.get("post_condition") or "")
        if not response:
            raise Unfit("it has no response")
        p = self.define(made, f"{label}_p", formula(response, self.kinds))
        timing, count = self.timing_of(made, meaning)
        if timing == "never":
            timing, p = "always", f"!{p}"
        kind = kind_of_scope(meaning)
        if kind in OUTSIDE:
            if timing not in DENIED or p.startswith("!"):
                raise Unfit(f"the scope {kind} with the timing {meaning.get('timing')} has more than one meaning")
            timing, p = DENIED[timing], f"!{p}"
        table, q, r = self.scope_of(made, meaning)
        if timing not in table:
            raise Unfit(f"{timing} in a scope without an end is never decided: write within")
        s = self.stop_of(made, meaning) if timing in ("until", "before") else ""
        text = table[timing].format(p=p, q=q, r=r, s=s, n=count, m=count + 1)
        made.formula = text.replace("!!", "")

    def stop_of(self, made: Requirement, meaning: dict[str, Any]) -> str:
        """Returns the condition that ends until or before."""
        text = str(meaning.get("stop_condition") or "")
        if not text:
            raise Unfit("its timing has no stop_condition")
        return self.define(made, f"{made.label}_s", formula(text, self.kinds))

    def define(self, made: Requirement, name: str, text: str) -> str:
        made.definitions.append(f"{name} := {text};")
        return name

    def timing_of(self, made: Requirement, meaning: dict[str, Any]) -> tuple[str, int]:
        """Returns the timing, and its duration in rows."""
        timing = str(meaning.get("timing") or "null").lower()
        timing = "eventually" if timing == "null" else timing
        if timing in ("always", "never", "immediately", "next", "eventually", "until", "before"):
            return timing, 0
        if timing not in ("within", "for", "after"):
            raise Unfit(f"the timing {timing} isn't in the tables")
        told = [it for it in DURATION.finditer(made.text) if it[1].lower() == timing]
        if len(told) != 1:
            raise Unfit(f"its text has {len(told) or 'no'} duration{'s' * (len(told) > 1)} of {timing}")
        unit, shown, value = told[0][3].lower(), told[0][0], fraction(told[0][2])
        given = str(meaning.get("duration") or "").strip()
        if value is None or given and fraction(given) != value:
            raise Unfit(f"{shown}: its semantics has the duration {given}")
        rows = value
        if unit in SECONDS:
            if self.rate is None:
                raise Unfit(f"{shown}: --rate says how many rows a second has")
            rows = value * SECONDS[unit] * self.rate
        elif unit not in ("tick", "row", "step", "sample", "frame", "cycle"):
            raise Unfit(f"{shown}: the unit {unit} isn't known")
        if rows.denominator != 1 or rows >= WIDEST:
            raise Unfit(f"{timing} {value} {unit}s: {float(rows):g} rows" + (" are too many" if rows >= WIDEST else ""))
        return timing, int(rows)

    def condition_of(self, meaning: dict[str, Any]) -> str:
        kind = str(meaning.get("condition") or "null").lower()
        if kind != "null" and kind not in CONDITIONS:
            raise Unfit(f"the condition {kind} isn't in the tables")
        word = str(meaning.get("qualifier_word") or "null").lower()
        if word != "null" and word not in CONDITIONS.get(kind, ((),))[0]:
            raise Unfit(f"the condition word {word} isn't in the tables")
        return kind

    def mode_of(self, made: Requirement, meaning: dict[str, Any]) -> str:
        text = str(meaning.get("scope_mode") or "")
        if not text:
            raise Unfit("its scope has no mode")
        return self.define(made, f"{made.label}_m", formula(text, self.kinds))

    def scope_of(self, made: Requirement, meaning: dict[str, Any]) -> tuple[dict[str, str], str, str]:
        """Returns the table of the scope, and what opens and closes it."""
        kind = kind_of_scope(meaning)
        kind = OUTSIDE.get(kind, kind)
        label, inside, end = made.label, "", ""
        if kind in ("in", "notin"):
            mode = self.mode_of(made, meaning)
            inside, end = (mode, f"!{mode}") if kind == "in" else (f"!{mode}", mode)
        elif kind == "before":
            end = self.mode_of(made, meaning)
            inside = f"H[0,{WIDEST}] !{end}"
        elif kind == "after":
            mode = self.mode_of(made, meaning)
            left = self.define(made, f"{label}_left", f"!{mode} && O[1,1] {mode}")
            inside = f"O[0,{WIDEST}] {left}"
        elif kind == "from":
            mode = self.mode_of(made, meaning)
            inside = f"O[0,{WIDEST}] {mode}"
        elif kind == "upto":
            mode = self.mode_of(made, meaning)
            end = self.define(made, f"{label}_left", f"!{mode} && O[1,1] {mode}")
            inside = f"H[0,{WIDEST}] !{end}"
        elif kind not in ("null", "none", "global"):
            raise Unfit(f"the scope {kind} isn't in the tables")
        if self.condition_of(meaning) == "null":
            return self.unconditional(made, kind, inside, end)
        return self.conditional(made, meaning, inside, end)

    def unconditional(self, made: Requirement, kind: str, inside: str, end: str) -> tuple[dict[str, str], str, str]:
        """Returns the table of a scope that opens by itself."""
        if kind in ("null", "none", "global"):
            return GLOBALLY, "", ""
        if kind in ("before", "upto"):
            return BEFORE, "", end
        if kind == "from":
            mode = f"{made.label}_m"
            return AFTER, self.define(made, f"{made.label}_q", f"{mode} && !(O[1,{WIDEST}] {mode})"), ""
        if kind == "after":
            left = f"{made.label}_left"
            return AFTER, self.define(made, f"{made.label}_q", f"{left} && !(O[1,{WIDEST}] {left})"), ""
        q = self.define(made, f"{made.label}_q", f"{inside} && !(O[1,1] {inside})")
        return UNTIL, q, self.define(made, f"{made.label}_r", end)

    def conditional(self, made: Requirement, meaning: dict[str, Any], inside: str, end: str) -> tuple[dict[str, str], str, str]:
        """Returns the table of a scope that the condition opens, within its mode."""
        kind = self.condition_of(meaning)
        found = {formula(str(meaning[it]), self.kinds) for it in CONDITIONS[kind][1] if meaning.get(it)}
        if len(found) != 1:
            raise Unfit("its condition has two texts" if found else "its condition has no text")
        c = found.pop()
        c = self.define(made, f"{made.label}_c", f"{inside} && {c}" if inside else c)
        if kind == "regular":
            c = self.define(made, f"{made.label}_q", f"{c} && !(O[1,1] {c})")
        if not end:
            return AFTER, c, ""
        return UNTIL, c, self.define(made, f"{made.label}_r", end)


def lasts(rate: Optional[Fraction]) -> str:
    """Returns how long the widest window is, if the rate is known."""
    return f", {float(WIDEST / rate / 3600):.3g} hours" if rate else ""


def kind_of_scope(meaning: dict[str, Any]) -> str:
    """Returns the type of the scope in lower case."""
    scope = meaning.get("scope")
    kind = str((scope or {}).get("type") if isinstance(scope, dict) else scope or "null").lower()
    for flag in ("exclusive", "required"):
        if isinstance(scope, dict) and scope.get(flag):
            raise Unfit(f"the scope {kind} with {flag} isn't in the tables")
    return kind


def written(requirements: list[Requirement], kinds: Kinds) -> str:
    """Returns the specification; what isn't taken is a comment in it."""
    lines = []
    for kind in ("bool", "int"):
        names = [name for name, it in kinds.found.items() if it == kind]
        lines += [f"INPUT {', '.join(names)}: {kind};"] if names else []
    if any("first" in it.formula.split() or "(first" in it.formula for it in requirements):
        lines.append("DEFINE first := !(O[1,1] true);")
    for it in requirements:
        lines.append(f"-- {it.label}{f', {it.id}' if it.id not in ('', it.label) else ''}: {it.text}")
        if it.why:
            lines.append(f"-- {it.label} isn't taken: {it.why}")
            continue
        lines += [f"DEFINE {text}" for text in it.definitions]
        lines.append(f"PTSPEC {it.label}: {it.formula};")
    return "\n".join([*lines, ""])
