"""Which cells of an explanation can be left out, whatever they hold.

A verdict may be decided by fewer cells than any of its parts, as that of `(p -> q) && (p || q)` is by q alone. Whether it
is, r2u2 says: it watches rows with other values in the cells that are left out, until a verdict differs or all cases have
been tried. A verdict follows from the words of some signals and comparisons at their rows: where one of these may come
out otherwise, that is a further case, and row_values finds values for it, or that there are none.
"""

from __future__ import annotations

from dataclasses import dataclass, field
from time import monotonic
from typing import Mapping, Optional, Sequence

from r2u2tools.common.cli import ToolError
from r2u2tools.why.deciding import Cell, Derivation, LeafCosts
from r2u2tools.why.omega import Unknown, Values
from r2u2tools.why.part_verdicts import Parts, PartWatch, Verdicts
from r2u2tools.why.row_values import row_values

# Runs of r2u2 for one explanation; a large one is over more times of parts, so there are fewer of them.
MOST_RUNS, MOST_SIZE, MOST_CELLS = 2000, 20_000, 256
Rows = dict[Cell, int]
# Signals and comparisons, at their times, with their words.
Case = dict[tuple[str, int], int]


@dataclass
class LeastCells:
    """Leaves out cells of an explanation one by one.

    `needed` has of each cell that can't be left out rows that say so: equal in the other cells, and with another verdict.
    """

    watch: PartWatch
    columns: Sequence[str]
    verdicts: Verdicts
    roots: Sequence[tuple[str, int]]
    time: int
    actual: Rows
    origin: int
    spans: dict[str, tuple[int, int]]
    needed: dict[Cell, Rows] = field(default_factory=dict)
    seconds: float = 5.0
    runs: int = 0
    is_cut: bool = False

    def __post_init__(self) -> None:
        self.parts: Parts = self.watch.parts
        self.shown, self.word = self.parts.shown, self.verdicts.word(self.time)
        self.times = range(self.origin, self.time + self.parts.ahead + 1)
        self.end = monotonic() + self.seconds
        self.known: dict[tuple[tuple[tuple[str, int], ...], tuple[tuple[str, int], ...]], Optional[Values]] = {}
        size = sum(high - low + 1 for low, high in self.spans.values())
        self.most_runs = min(MOST_RUNS, 100 * MOST_SIZE // max(1, size)) if size <= MOST_SIZE else 0

    def least(self, cells: frozenset[Cell]) -> frozenset[Cell]:
        """Those of some cells that decide the verdict without the others; when the time is up, what was found."""
        if len(cells) > MOST_CELLS:
            return cells
        for cell in sorted(cells, key=lambda cell: (cell[1], cell[0])):
            rest = cells - {cell}
            if self.is_cut:
                break
            try:
                found = self.other_verdict(rest)
            except Unknown:
                continue
            if found is None:
                cells = rest
            else:
                self.needed[cell] = found
        return cells

    def other_verdict(self, kept: frozenset[Cell]) -> Optional[Rows]:
        """Rows with these cells and another verdict; None where there are none."""
        left: list[Case] = [{}]
        is_open = False
        while left:
            case = left.pop()
            self.is_cut = monotonic() > self.end
            if self.is_cut:
                raise Unknown
            try:
                rows = self.rows_of(case, kept)
            except Unknown:
                is_open = True
                continue
            if rows is None:
                continue
            verdicts = self.watched(rows)
            if verdicts.word(self.time) != self.word:
                return rows
            for leaf, word in self.free(verdicts, case, kept):
                left.append({**case, leaf: 1 - word})
                case = {**case, leaf: word}
        if is_open:
            raise Unknown
        return None

    def rows_of(self, case: Case, kept: frozenset[Cell]) -> Optional[Rows]:
        """Rows with some cells of the trace in which signals and comparisons have these words; None where there are none."""
        by_time: dict[int, dict[str, int]] = {}
        for (ref, time), word in case.items():
            by_time.setdefault(time, {})[ref] = word
        rows = {(name, time): 0 for time in self.times for name in self.parts.signals}
        rows.update((cell, self.actual[cell]) for cell in kept)
        for time, words in by_time.items():
            values = self.values_of(words, {name: rows[name, time] for name in self.parts.signals if (name, time) in kept})
            if values is None:
                return None
            rows.update(((name, time), value) for name, value in values.items())
        return rows

    def values_of(self, words: Mapping[str, int], fixed: Values) -> Optional[Values]:
        """Values of the other signals of a row; rows with the same question have the same answer."""
        signals = {ref: word for ref, word in words.items() if ref in self.shown.signals}
        compared = {ref: word for ref, word in words.items() if ref not in signals}
        read = {name for ref in compared for name in self.shown.signals_of(ref)}
        fixed = {name: value for name, value in fixed.items() if name in read}
        key = tuple(sorted(compared.items())), tuple(sorted(fixed.items()))
        if key not in self.known:
            self.known[key] = row_values(self.shown, compared, fixed)
        found = self.known[key]
        return None if found is None else {**found, **signals}

    def free(self, verdicts: Verdicts, case: Case, kept: frozenset[Cell]) -> list[tuple[tuple[str, int], int]]:
        """The signals and comparisons, with their words, by which this verdict follows, but those that are fixed."""
        costs = LeafCosts(case.keys(), kept)
        made = Derivation(verdicts, costs)
        made.choose(self.roots)
        leaves = [(ref, time) for ref, times in made.chosen.items() if self.shown.is_leaf(ref) for time in times]
        found = [leaf for leaf in leaves if leaf not in case and not costs.is_fixed(self.shown.signals_of(leaf[0]), leaf[1])]
        return [((ref, time), verdicts.at(ref, time)) for ref, time in sorted(found)]

    def watched(self, rows: Rows) -> Verdicts:
        """What r2u2 says of the parts over such rows."""
        self.runs += 1
        if self.runs > self.most_runs:
            raise Unknown
        lines = [",".join(str(rows.get((name, time), 0)) for name in self.columns).encode() + b"\n" for time in self.times]
        try:
            return self.watch.over(lines, self.origin, self.spans)
        except ToolError:
            raise Unknown from None
