"""Which state each instruction of future time needs in C.

Denials are folded into their readers. What is left is known at once, or decides with a delay in one of three forms:

  count  an until over operands that are known at once: the number of times that aren't decided is all its state
  word   a delay of at most 63 rows: verdicts are the bits of a word
  ring   a longer one: verdicts are bits of a ring of words
"""

from __future__ import annotations

from dataclasses import dataclass
from typing import Iterator

from r2u2tools.generate.program import Instruction, Output, Program

CONSTANT = -1
WORD = 63


@dataclass(frozen=True)
class Ref:
    """A formula by the number of its instruction, or CONSTANT for true; and whether it is denied."""

    node: int
    is_denied: bool

    def denied(self) -> Ref:
        return Ref(self.node, not self.is_denied)


TRUE = Ref(CONSTANT, False)


@dataclass
class Node:
    """An instruction, its operands, its delays, and what its readers need of it: a history in a word or in a ring."""

    number: int
    op: str
    left: Ref
    right: Ref
    low: int = 0
    high: int = 0
    best: int = 0
    worst: int = 0
    load: int = 0
    form: str = "now"
    is_read: bool = False
    word: int = 0
    ring: int = 0
    reach: int = 0

    def width(self) -> int:
        """The bits of its words."""
        return max(self.word, 32 if self.worst < 32 else 64)


class Nodes:
    """The nodes of a program, by the numbers of their instructions, with what each needs."""

    def __init__(self, program: Program) -> None:
        self.refs = list[Ref]()
        self.all = dict[int, Node]()
        for k, it in enumerate(program.ft):
            self.refs.append(self.ref_of(k, it))
        self.outputs = [it for it in program.outputs if not it.is_past]
        for output in self.outputs:
            self.ask_of_output(output)
        for node in reversed(list(self.all.values())):
            self.ask_of(node)
        for node in self.all.values():
            if node.ring:
                node.ring = words_for(node.reach - node.best + 1)

    def ref_of(self, k: int, it: Instruction) -> Ref:
        """The formula of an instruction; those with a node get one."""
        if it.op == "true":
            return TRUE
        if it.op == "not":
            return self.refs[it.left].denied()
        if it.op == "load":
            self.all[k] = Node(k, "load", TRUE, TRUE, load=it.left)
            return Ref(k, False)
        left, right = self.refs[it.left], self.refs[it.right]
        if it.op == "and":
            for one, other in ((left, right), (right, left)):
                if one.node == CONSTANT:
                    return one if one.is_denied else other
        self.all[k] = self.node_of(k, it, left, right)
        return Ref(k, False)

    def node_of(self, k: int, it: Instruction, left: Ref, right: Ref) -> Node:
        best, worst = self.delays(left), self.delays(right)
        node = Node(k, it.op, left, right, it.low, it.high)
        node.best = min(best[0], worst[0]) + it.low
        node.worst = max(best[1], worst[1]) + it.high
        both_now = self.is_now(left) and self.is_now(right)
        if it.op == "until":
            node.form = "count" if both_now else "word" if node.worst <= WORD else "ring"
        elif not both_now:
            node.form = "word" if node.worst <= WORD else "ring"
        node.reach = node.worst
        return node

    def of(self, ref: Ref) -> Node:
        return self.all[ref.node]

    def delays(self, ref: Ref) -> tuple[int, int]:
        return (0, 0) if ref.node == CONSTANT else (self.of(ref).best, self.of(ref).worst)

    def is_now(self, ref: Ref) -> bool:
        return ref.node == CONSTANT or self.of(ref).form == "now"

    def form(self, ref: Ref) -> str:
        return "now" if ref.node == CONSTANT else self.of(ref).form

    def sides(self, it: Output) -> tuple[Ref, Ref]:
        return self.refs[it.left], self.refs[it.right]

    def worst(self, *refs: Ref) -> int:
        return max(self.delays(ref)[1] for ref in refs)

    def ask_of_output(self, it: Output) -> None:
        """Notes what an output reads of its formulas."""
        left, right = self.sides(it)
        self.read(left)
        if not it.is_contract:
            return
        self.read(right)
        worst = self.worst(left, right)
        if self.is_now(left) and self.is_now(right):
            return
        if worst > WORD:
            self.ask_rings(left, right)
        else:
            self.ask_words(32 if worst < 32 else 64, left, right, self.takes_runs(left, right))

    def ask_of(self, node: Node) -> None:
        """Notes what a node that is read needs of its operands; its readers were asked before."""
        if not node.is_read or node.op == "load":
            return
        self.read(node.left)
        self.read(node.right)
        if node.form == "word":
            runs = node.op == "and" and not node.word and self.takes_runs(node.left, node.right)
            self.ask_words(node.width(), node.left, node.right, runs)
        elif node.form == "ring":
            node.ring = 1
            self.ask_rings(node.left, node.right)

    def takes_runs(self, left: Ref, right: Ref) -> bool:
        """Whether of two operands one is known at once and the other one counts: only the last run of it is needed then."""
        return sorted((self.form(left), self.form(right))) == ["count", "now"]

    def read(self, ref: Ref) -> None:
        if ref.node != CONSTANT:
            self.of(ref).is_read = True

    def operands(self, *refs: Ref) -> Iterator[Node]:
        return (self.of(ref) for ref in refs if ref.node != CONSTANT)

    def ask_words(self, width: int, left: Ref, right: Ref, runs: bool) -> None:
        for node in self.operands(left, right):
            if not (runs and node.form == "count"):
                node.word = max(node.word, width)

    def ask_rings(self, left: Ref, right: Ref) -> None:
        worst = self.worst(left, right)
        for node in self.operands(left, right):
            node.ring = 1
            node.reach = max(node.reach, worst)


def words_for(size: int) -> int:
    """The words of 64 bits of a ring for some verdicts: a power of two."""
    words = 1
    while 64 * words < size:
        words *= 2
    return words
