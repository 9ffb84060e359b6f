"""Why a verdict is what it is, as a tree: formulas with their words and times, down to signals at rows."""

from __future__ import annotations

import re
from dataclasses import dataclass, field
from pathlib import Path
from typing import Optional, Union

from r2u2tools.common.compiled import Compiled, quote
from r2u2tools.common.cli import ToolError
from r2u2tools.common.program_text import Bare, Count, ProgramText, Requirement
from r2u2tools.common.specs import read_spec
from r2u2tools.why.deciding import Cell, Derivation, derivation
from r2u2tools.why.least_cells import LeastCells, Rows
from r2u2tools.why.open_verdicts import Below, OpenVerdicts
from r2u2tools.why.part_verdicts import FALSE, TRUE, UNKNOWN, Parts, PartWatch, Verdicts
from r2u2tools.why.trace_window import Cells, TraceWindow, read_window

DENIED = {TRUE: FALSE, FALSE: TRUE, UNKNOWN: UNKNOWN}
# Of each word of an output what its references have to be.
NEEDS = {"T": (TRUE,), "F": (FALSE,), "inactive": (FALSE,), "invalid": (TRUE, FALSE), "verified": (TRUE, TRUE)}
LINE = re.compile(r"(trace line )(\d+)")


@dataclass
class Reason:
    """A part, as it is or denied, with one word, the times at which it has it, and what it follows from."""

    ref: str
    denied: bool
    word: int
    times: list[int]
    below: list[Reason] = field(default_factory=list)
    cells: frozenset[Cell] = frozenset()
    # Of a quantifier that counts, at one time: the members that hold there, and the quantifier.
    hold: list[Bare] = field(default_factory=list)
    count: Optional[Count] = None


@dataclass
class Held:
    """A part whose verdict of a time follows from what is known, and waits for that of an earlier time."""

    reason: Reason
    time: int
    earlier: int


@dataclass
class Explanation:
    """The reasons of one output's verdict at a time.

    `word` is what is said of it, None of an open one, and `at` the time of which the reasons speak: of an open verdict
    that its parts decide, an earlier one, whose line comes first. `cells` decide the verdict; the reasons may speak of
    more, where no part alone is decided by fewer. `needed` has of a cell rows that show that it can't be left out. After
    the seconds that were asked for, `is_cut`, there may be cells that can.
    """

    word: Optional[str]
    at: int
    reasons: list[Reason]
    cells: frozenset[Cell]
    leaves: list[Reason]
    needed: dict[Cell, Rows] = field(default_factory=dict)
    is_cut: bool = False
    held: Optional[Held] = None


class Follows:
    """What a derivation says of a part: operands with their words and times."""

    def __init__(self, made: Derivation) -> None:
        self.made, self.verdicts = made, made.verdicts

    def below(self, ref: str, word: int, times: set[int]) -> Below:
        found: Below = {}
        for time in sorted(times):
            for it in self.made.demands(ref, word, time):
                found.setdefault((it.ref, it.word), set()).update(range(it.first, it.last + 1))
        return found


class Tree:
    """Makes a tree of reasons of what each part follows from."""

    def __init__(self, shown: ProgramText, source: Union[Follows, OpenVerdicts]) -> None:
        self.shown, self.source = shown, source

    def reason(self, ref: str, word: int, times: set[int], denied: bool = False) -> Reason:
        """A part with what it follows from. It is spelled as in the formula around it: as it is, or denied."""
        bare, turned = self.shown.bare(ref)
        ref, word, denied = bare, DENIED[word] if turned else word, denied != turned
        denied = denied and self.shown.form(ref, True).op != "!"
        said = DENIED[word] if denied else word
        if self.shown.is_leaf(ref):
            return self.leaf(ref, denied, said, times)
        count = self.shown.counts.get((ref, False)) or self.shown.counts.get((ref, True))
        if count:
            return self.counted(Reason(ref, denied, said, sorted(times)), word, count)
        below = in_order(self.merged(ref, denied, self.source.below(ref, word, times)))
        return Reason(ref, denied, said, sorted(times), below, union(below))

    def counted(self, reason: Reason, word: int, count: Count) -> Reason:
        """The members on which a quantifier depends, in the place of the parts that count them."""
        members, seen = dict(count.members), set[tuple[str, int, int]]()
        found: Below = {}
        left = [(reason.ref, word, time) for time in reason.times]
        while left:
            part = left.pop()
            for (ref, its), times in self.source.below(part[0], part[1], {part[2]}).items():
                bare, turned = self.shown.bare(ref)
                fresh = {(ref, its, time) for time in times} - seen
                seen |= fresh
                if bare in members or self.shown.signals_of(bare) and self.shown.is_leaf(bare):
                    found.setdefault((bare, DENIED[its] if turned else its), set()).update(times)
                elif bare != "true":
                    left += fresh
        reason.below = in_order([self.reason(ref, its, times, members.get(ref, False)) for (ref, its), times in found.items()])
        reason.cells, reason.count = union(reason.below), count
        if len(reason.times) == 1:
            reason.hold = [it for it in count.members if self.holds(it, reason.times[0])]
        return reason

    def holds(self, member: Bare, time: int) -> bool:
        ref, denied = member
        part = self.source.verdicts.by_ref.get(ref)
        return part is not None and part.low <= time <= part.high and part.at(time) == (FALSE if denied else TRUE)

    def merged(self, ref: str, denied: bool, below: Below) -> list[Reason]:
        """The parts below. A conjunction within a conjunction gives way to its own, and what no row decides is left out
        where a row decides another one."""
        spelled, found = dict(self.shown.form(ref, denied).parts), list[Reason]()
        for (operand, word), times in below.items():
            reason = self.reason(operand, word, times, spelled.get(operand, False))
            same = self.shown.op(ref) == "&&" == self.shown.op(reason.ref) and not self.shown.name(operand)
            found += reason.below if same and reason.below and not self.shown.bare(operand)[1] else [reason]
        return [reason for reason in found if reason.cells or reason.below] or found

    def leaf(self, ref: str, denied: bool, word: int, times: set[int]) -> Reason:
        cells = frozenset((name, time) for name in self.shown.signals_of(ref) for time in times)
        return Reason(ref, denied, word, sorted(times), cells=cells)

    def leaves(self, reasons: list[Reason]) -> list[Reason]:
        """The parts that speak of one row, in their order, each with all times that it has below some reasons."""
        found: dict[tuple[str, bool, int], set[int]] = {}
        left = list(reversed(reasons))
        while left:
            reason = left.pop()
            if reason.below:
                left += reversed(reason.below)
            elif self.shown.is_leaf(reason.ref):
                found.setdefault((reason.ref, reason.denied, reason.word), set()).update(reason.times)
        return [self.leaf(*leaf, times) for leaf, times in found.items()]


def in_order(reasons: list[Reason]) -> list[Reason]:
    """The smallest reasons first."""
    return sorted(reasons, key=lambda reason: (len(reason.cells), reason.times))


def union(reasons: list[Reason]) -> frozenset[Cell]:
    return frozenset[Cell]().union(*(reason.cells for reason in reasons))


class Explainer:
    """Explains verdicts of one output of a program over a trace."""

    def __init__(self, made: Compiled, requirement: Requirement, folder: Path, seconds: float = 5.0) -> None:
        self.seconds = seconds
        self.made, self.requirement, self.shown = made, requirement, made.shown
        self.parts = Parts(made.shown, requirement)
        self.columns = made.program.columns()
        self.watch = PartWatch(self.parts, made.program, folder)
        self.signals = [signal for signal in read_spec(made.path).signals if signal.name in self.parts.signals]
        quote(made, requirement, folder)

    def kinds(self) -> dict[str, str]:
        """The signals that the output reads, with their kinds."""
        return {name: self.shown.signals[name] for name in self.parts.signals}

    def window(self, path: str, time: int, timed: bool, begin: int = 0) -> TraceWindow:
        """The rows of a trace that may matter to the verdict of a time; `begin` is the time of its first row."""
        low, high = max(0, time - self.parts.ahead - self.parts.back), time + self.parts.ahead
        window = read_window(path, low, high, timed, begin)
        if self.made.old:
            window.header = None
        return window

    def explain(self, window: TraceWindow, time: int) -> Explanation:
        """The reasons of the verdict of a time for which the window has a row."""
        first = self.parts.first(time, window.rows)
        window.reach(max(0, first - self.parts.back))
        spans = self.parts.spans(first, time)
        verdicts = self.over(window, spans)
        words = [verdicts.word(at) for at in range(first, time + 1)]
        word = words[-1]
        if word is None or None in words:
            return self.open(window, first, time if word is None else first + words.index(None))
        roots = [(ref, need) for ref, need in zip(self.requirement.operands(), NEEDS[word])]
        return self.decided(window, verdicts, roots, time, word)

    def over(self, window: TraceWindow, spans: dict[str, tuple[int, int]]) -> Verdicts:
        """What r2u2 says of the parts over the rows of a window; a fault has its line in the trace."""
        origin = min(low for low, _ in spans.values())
        numbers, rows = list[int](), list[bytes]()
        if window.header is not None:
            numbers, rows = [1], [window.header + b"\n"]
        for number, row in window.since(origin):
            numbers.append(number)
            rows.append(row)
        try:
            return self.watch.over(rows, origin, spans)
        except ToolError as trouble:
            raise ToolError(LINE.sub(lambda it: f"{it[1]}{numbers[int(it[2]) - 1]}", str(trouble))) from None

    def open(self, window: TraceWindow, first: int, time: int) -> Explanation:
        """What an open verdict waits for."""
        spans = {ref: (first, high) for ref, (_, high) in self.parts.spans(first, time).items()}
        verdicts = self.over(window, spans)
        source = OpenVerdicts(verdicts)
        refs = [ref for ref in self.requirement.operands() if verdicts.at(ref, time) == UNKNOWN]
        at = max(source.first(ref, time) for ref in refs)
        tree = Tree(self.shown, source)
        reasons = in_order([tree.reason(ref, UNKNOWN, {source.first(ref, at)}) for ref in refs])
        found = Explanation(None, at, reasons, union(reasons), tree.leaves(reasons))
        if len(refs) == 1 and (held := source.only_held(refs[0], at)):
            part, wanted, earlier = held
            found.held = Held(tree.reason(part, UNKNOWN, {earlier}), wanted, earlier)
        return found

    def decided(
        self, window: TraceWindow, verdicts: Verdicts, roots: list[tuple[str, int]], time: int, word: str
    ) -> Explanation:
        """What decides a verdict."""
        at = [(ref, time) for ref, _ in roots]
        made = derivation(verdicts, at)
        tree = Tree(self.shown, Follows(made))
        reasons = in_order([tree.reason(ref, need, {time}) for ref, need in roots])
        least = self.least(window, verdicts, at, time)
        cells = least.least(union(reasons))
        return Explanation(word, time, reasons, cells, tree.leaves(reasons), least.needed, least.is_cut)

    def least(self, window: TraceWindow, verdicts: Verdicts, at: list[tuple[str, int]], time: int) -> LeastCells:
        spans = {ref: (part.low, part.high) for ref, part in verdicts.by_ref.items()}
        cells = Cells(window, self.signals)
        actual = {(name, row): int(cells.value(name, row)) for name in self.parts.signals for row in cells.by_time}
        origin = min(low for low, _ in spans.values())
        return LeastCells(self.watch, self.columns, verdicts, at, time, actual, origin, spans, seconds=self.seconds)
