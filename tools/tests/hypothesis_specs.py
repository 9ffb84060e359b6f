"""Specifications and traces over the whole grammar, as strategies of hypothesis."""

from __future__ import annotations

from dataclasses import dataclass

from hypothesis import strategies as st

SIGNALS = {"p": "bool", "q": "bool", "r": "bool", "x": "int", "y": "int"}
HEAD = """STRUCT Unit: { on: bool; load: int; }; Bank: { units: set<Unit>; most: int; };
INPUT p, q, r: bool; x, y: int;
DEFINE limit := 1 + 1; high := x > limit; one := Unit(p, x); bank := Bank({ one, Unit(q, y) }, limit); flags := { p, q, r };
"""
NUMBERS = ("x", "y", "x + y", "x - 1", "2 * y", "-x", "x % 2", "y / 2", "one.load", "bank.most", "x * y")
CONSTANTS = ("0", "1", "2", "-1", "limit", "3 - 1")
COUNTING = ("forexactly", "foratleast", "foratmost")


@dataclass(frozen=True)
class Asked:
    """A specification with the output `f`, rows, and a time of these."""

    text: str
    rows: list
    time: int


@st.composite
def windows(draw):
    low = draw(st.integers(0, 2))
    high = low + draw(st.integers(0, 3))
    return f"[{high}]" if low == 0 and draw(st.booleans()) else f"[{low},{high}]"


@st.composite
def atoms(draw, members):
    """A truth of one row: a signal, a comparison, a constant, a part of a struct, or a member of a set."""
    kind = draw(st.integers(0, 9))
    if members and kind < 5:
        return draw(st.sampled_from(members))
    if kind < 6:
        return draw(st.sampled_from(("p", "q", "r", "p", "q", "r", "high", "one.on", "true", "false")))
    sign = draw(st.sampled_from(("==", "!=", "<", "<=", ">", ">=")))
    left = draw(st.sampled_from(("x", "y", "x", "y", *NUMBERS)))
    right = draw(st.sampled_from((*CONSTANTS, *CONSTANTS, *CONSTANTS, *NUMBERS)))
    return f"{left} {sign} {right}" if draw(st.booleans()) else f"{right} {sign} {left}"


@st.composite
def quantified(draw, depth, past):
    over, members = draw(st.sampled_from((
        ("flags", ("m",)), ("{ p, !q }", ("m",)), ("bank.units", ("m.on", "m.load > 1", "m.load <= bank.most")),
        ("{ x, y, 2 }", ("m == 1", "m > x", "m < 2")), ("{ one }", ("m.on",)),
    )))
    body = draw(formulas(max(0, depth - 1), past, members))
    if draw(st.booleans()):
        return f"{draw(st.sampled_from(('foreach', 'forsome')))}(m: {over})({body})"
    return f"{draw(st.sampled_from(COUNTING))}(m: {over}, {draw(st.integers(0, 3))})({body})"


@st.composite
def formulas(draw, depth, past, members=()):
    """A formula with at most `depth` operators in one another."""
    kind = draw(st.integers(0, 12)) if depth else 0
    if kind < 2:
        return draw(atoms(members))
    if kind == 2 and not members:
        return draw(quantified(depth, past))
    one = draw(formulas(depth - 1, past, members))
    if kind < 4:
        return f"!({one})"
    if kind < 7:
        return f"{draw(st.sampled_from('OH' if past else 'FG'))}{draw(windows())} ({one})"
    other = draw(formulas(depth - 1, past, members))
    if kind < 11:
        return f"({one}) {draw(st.sampled_from(('&&', '||', '->', '<->')))} ({other})"
    return f"({one}) {draw(st.sampled_from('S' if past else 'UR'))}{draw(windows())} ({other})"


@st.composite
def questions(draw):
    past, depth = draw(st.booleans()), draw(st.integers(1, 4))
    body, text = draw(formulas(depth, past)), HEAD
    if draw(st.integers(0, 3)) == 0:
        text, body = text + f"DEFINE part := {body};\n", f"part && ({draw(formulas(1, past))})"
    if draw(st.integers(0, 3)) == 0:
        body += f" => {draw(formulas(2, past))}"
    rows = draw(st.lists(st.tuples(*(field(kind) for kind in SIGNALS.values())), min_size=1, max_size=12))
    return Asked(f"{text}{'PTSPEC' if past else 'FTSPEC'} f: {body};\n", rows, draw(st.integers(0, len(rows) - 1)))


def field(kind):
    return st.integers(0, 1) if kind == "bool" else st.integers(-3, 5)
