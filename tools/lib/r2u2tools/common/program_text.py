"""A compiled program as definitions, and how a formula is spelled.

A program has the operators of the core alone. A formula is spelled with those
of the language where they can be found again: `!(true U[0,3] !p)` as `G[0,3] p`.
"""

from __future__ import annotations

from dataclasses import dataclass, field
from itertools import count, product
from typing import Optional

from r2u2tools.common.cli import ToolError
from r2u2tools.common.program_file import Place, Program

# A formula without the denials around it, and whether it is denied.
Bare = tuple[str, bool]

SIGNS = {"neg": "-", "add": "+", "sub": "-", "mul": "*", "div": "/", "rem": "%", "eq": "==", "lt": "<", "le": "<="}
SIGNS |= {"not": "!", "and": "&&", "until": "U", "since": "S"}

# How tightly an operator binds, as the language has it.
LEVELS = {"<->": 1, "->": 2, "||": 3, "&&": 4, "U": 5, "R": 5, "S": 5, "+": 8, "-": 8, "*": 9, "/": 9, "%": 9}
LEVELS |= dict.fromkeys("!FGOH", 6) | dict.fromkeys(("==", "!=", "<", "<=", ">", ">="), 7)
COMPARED, NEGATIVE, LEAF = 7, 10, 11
# The levels of temporal operators and of denial.
TEMPORAL = (5, 6)
ATOMS = ("==", "<", "<=")
DENIED = {"==": "!=", "<": ">=", "<=": ">"}
TURNED = {"<": ">", "<=": ">=", ">": "<", ">=": "<="}
DEEPEST, MOST_FORMS = 60, 2000


@dataclass(frozen=True)
class Node:
    """A definition: its operator and operands, and the interval of U and S."""

    op: str
    left: str
    right: str = ""
    low: int = 0
    high: int = 0

    def operands(self) -> tuple[str, ...]:
        return (self.left, self.right) if self.right else (self.left,)


@dataclass(frozen=True)
class Requirement:
    """An output: its name, its section, one reference or the two of a contract, and how the specification writes them."""

    name: str
    section: str
    left: str
    right: str = ""
    texts: dict[str, str] = field(default_factory=dict, compare=False)

    def operands(self) -> tuple[str, ...]:
        return (self.left, self.right) if self.right else (self.left,)


@dataclass(frozen=True)
class Count:
    """A quantifier that counts: its word, its number, and the formulas of its members, each as it is or denied."""

    word: str
    number: int
    members: list[Bare]

    def wanted(self) -> str:
        return f"{self.word.removeprefix('for').replace('at', 'at ')} {self.number}"


@dataclass
class Form:
    """An operator of the language, its operands, each as it is or denied, and its interval."""

    op: str
    parts: list[Bare]
    window: str = ""


@dataclass
class ProgramText:
    """The text of a program: its signals with their kinds, its definitions, and its outputs."""

    signals: dict[str, str] = field(default_factory=dict)
    nodes: dict[str, Node] = field(default_factory=dict)
    outputs: list[Requirement] = field(default_factory=list)
    # What each instruction is called.
    refs: dict[Place, str] = field(default_factory=dict)
    # The names that the specification gives to formulas, and how it writes others.
    called: dict[Bare, str] = field(default_factory=dict)
    quoted: dict[Bare, str] = field(default_factory=dict)
    # The formulas that the specification writes as quantifiers that count.
    counts: dict[Bare, Count] = field(default_factory=dict)

    def output(self, name: str) -> Requirement:
        for output in self.outputs:
            if output.name == name:
                return output
        names = [output.name for output in self.outputs]
        known = f"there {'is' if len(names) == 1 else 'are'} {', '.join(names[:20])}" if names else "there is none"
        raise ToolError(f"no output {name}: {known}")

    def op(self, ref: str) -> Optional[str]:
        return self.nodes[ref].op if ref in self.nodes else None

    def below(self, *refs: str) -> set[str]:
        """All that formulas read, with themselves: signals, numbers, true and definitions."""
        found, left = set(), list(refs)
        while left:
            ref = left.pop()
            if ref not in found:
                found.add(ref)
                left += self.nodes[ref].operands() if ref in self.nodes else ()
        return found

    def is_truth(self, ref: str) -> bool:
        """Whether a reference is a formula, and not a number."""
        if ref in self.nodes:
            return self.nodes[ref].op in (*ATOMS, "!", "&&", "U", "S")
        return ref == "true" or self.signals.get(ref) == "bool"

    def is_leaf(self, ref: str) -> bool:
        """Whether a formula speaks of one row by itself: a signal, a comparison, true."""
        return ref not in self.nodes or self.nodes[ref].op in ATOMS

    def equals_of(self, other: ProgramText) -> dict[str, list[str]]:
        """Which definitions equal those of another text; both engines may have one."""
        refs: dict[Node, list[str]] = {}
        for ref, node in self.nodes.items():
            refs.setdefault(node, []).append(ref)
        equal: dict[str, list[str]] = {}
        for ref, node in other.nodes.items():
            sides = [equal.get(operand, []) if operand in other.nodes else [operand] for operand in node.operands()]
            wanted = (Node(node.op, pair[0], "".join(pair[1:]), node.low, node.high) for pair in product(*sides))
            if found := [it for node in wanted for it in refs.get(node, ())]:
                equal[ref] = found
        return equal

    def signals_of(self, ref: str) -> list[str]:
        below = self.below(ref)
        return [name for name in self.signals if name in below]

    def is_negative(self, ref: str) -> bool:
        """Whether a formula is spelled shorter when it is denied: a denial without a name, or several joined by `&&`."""
        left, seen = [ref], set[str]()
        while left:
            ref = left.pop()
            if self.name(ref) or self.op(ref) not in ("!", "&&"):
                return False
            seen.add(ref)
            left += [it for it in self.nodes[ref].operands() if it not in seen] if self.op(ref) == "&&" else ()
        return True

    def bare(self, ref: str, denied: bool = False) -> Bare:
        """A formula without the denials around it, and whether it is then denied."""
        while (inner := self.within(ref)) != ref:
            ref, denied = inner, denied != (self.op(ref) == "!")
        return ref, denied

    def within(self, ref: str) -> str:
        """What a formula denies, or joins with true; else itself."""
        node = self.nodes.get(ref)
        if node and node.op == "&&" and "true" in node.operands():
            return node.left if node.right == "true" else node.right
        return node.left if node and node.op == "!" else ref

    def name(self, ref: str, denied: bool = False) -> Optional[str]:
        return self.called.get(self.bare(ref, denied))

    def form(self, ref: str, denied: bool = False) -> Form:
        """A formula, or its denial, by its outermost operator; a leaf has no parts."""
        ref, denied = self.bare(ref, denied)
        if (ref, denied) in self.called:
            return Form(self.called[ref, denied], [])
        if denied and (ref in self.signals or (ref, False) in self.called):
            return Form("!", [(ref, False)])
        node = self.nodes.get(ref)
        if node is None:
            return Form("false" if denied else ref, [])
        if node.op in ATOMS:
            return self.compared(node, DENIED[node.op] if denied else node.op)
        return self.denied(ref, node) if denied else self.plain(node)

    def compared(self, node: Node, op: str) -> Form:
        """A comparison, of an order with a number on its right side."""
        parts = [(node.left, False), (node.right, False)]
        return Form(TURNED[op], parts[::-1]) if op in TURNED and self.is_number(node.left) else Form(op, parts)

    def is_number(self, ref: str) -> bool:
        node = self.nodes.get(ref)
        return ref.lstrip("-").isdigit() or bool(node and node.op == "-" and not node.right and node.left.isdigit())

    def plain(self, node: Node) -> Form:
        window = f"[{node.low},{node.high}]" if node.op in "US" else ""
        if window and node.left == "true":
            return Form({"U": "F", "S": "O"}[node.op], [(node.right, False)], window)
        if node.op == "&&" and (pair := self.equals(node)):
            return Form("<->", pair)
        return Form(node.op, [(part, False) for part in node.operands()], window)

    def denied(self, ref: str, node: Node) -> Form:
        window = f"[{node.low},{node.high}]" if node.op in "US" else ""
        if window and node.left == "true":
            return Form({"U": "G", "S": "H"}[node.op], [(node.right, True)], window)
        negative = [self.is_negative(part) for part in node.operands()]
        if node.op == "U" and all(negative):
            return Form("R", [(node.left, True), (node.right, True)], window)
        if node.op == "&&" and not self.equals(node):
            if negative[0]:
                return Form("||", [(node.left, True), (node.right, True)])
            if self.form(node.right, True).op != "!":
                return Form("->", [(node.left, False), (node.right, True)])
        return Form("!", [(ref, False)])

    def equals(self, node: Node) -> Optional[list[Bare]]:
        """The two sides of an equivalence, where a conjunction is one: !(x && !y) && !(y && !x)."""
        if not all(self.op(part) == "!" for part in node.operands()):
            return None
        one, other = (self.nodes.get(self.nodes[part].left) for part in node.operands())
        if not (one and other and one.op == other.op == "&&"):
            return None
        if self.are_opposite(other.left, one.right) and self.are_opposite(other.right, one.left):
            return [(one.left, False), (one.right, True)]
        return None

    def are_opposite(self, one: str, other: str) -> bool:
        return self.nodes.get(one) == Node("!", other) or self.nodes.get(other) == Node("!", one)

    def text(self, ref: str, denied: bool = False) -> str:
        """A formula, or its denial, in the operators of the language; of a large one the outer operators."""
        return Spelling(self).text(ref, denied)

    def uncalled(self, ref: str) -> str:
        """A formula by its own operators, also where it has a name."""
        bare = self.bare(ref)
        name = self.called.pop(bare, None)
        text = self.text(ref)
        if name:
            self.called[bare] = name
        return text


class Spelling:
    """Writes one formula, in which a part that is read several times is written as often; what is past MOST_FORMS is three dots."""

    def __init__(self, program: ProgramText) -> None:
        self.program, self.left = program, MOST_FORMS

    def text(self, ref: str, denied: bool = False, level: int = 1, depth: int = 0) -> str:
        form = self.program.form(ref, denied)
        if not form.parts:
            return form.op
        self.left -= 1
        if depth > DEEPEST or self.left < 0:
            return "..."
        mine = NEGATIVE if form.op == "-" and len(form.parts) == 1 else LEVELS[form.op]
        if len(form.parts) == 1:
            text = form.op + form.window + (" " if form.window else "") + self.inner(form.parts[0], mine, mine, depth)
        else:
            sides = (mine + 1, mine) if form.op == "->" else (mine, mine + 1)
            left, right = (self.inner(part, mine, side, depth) for part, side in zip(form.parts, sides))
            text = f"{left} {form.op}{form.window} {right}"
        return f"({text})" if mine < level else text

    def inner(self, part: Bare, mine: int, level: int, depth: int) -> str:
        """A part of a formula; a comparison below a temporal operator or a denial has brackets, for the eye."""
        compared = LEVELS.get(self.program.form(*part).op) == COMPARED
        return self.text(*part, level if mine not in TEMPORAL or not compared else LEAF, depth + 1)


def program_text(program: Program) -> ProgramText:
    """The definitions of a program, with the names that `c2po --show` gives to them."""
    found = ProgramText({it.name: it.kind for it in program.signals})
    columns, fresh = program.columns(), (f"d{k}" for k in count() if f"d{k}" not in found.signals)
    for place, it in program.instructions.items():
        reads = [found.refs[operand] for operand in it.reads]
        if it.op in SIGNS:
            found.refs[place] = next(fresh)
            found.nodes[found.refs[place]] = Node(SIGNS[it.op], reads[0], reads[1] if len(reads) > 1 else "", it.low, it.high)
        elif it.op == "load":
            found.refs[place] = reads[0]
        else:
            found.refs[place] = columns[it.value] if it.op in ("column", "istrue") else str(it.value) if it.op == "const" else "true"
    for output in program.outputs:
        refs = [found.refs[root] for root in output.roots]
        found.outputs.append(Requirement(output.name, output.section, refs[0], refs[1] if len(refs) > 1 else ""))
    return found
