"""Which parts of a formula decide its verdict, and at which times.

Each verdict of a part follows from verdicts of its operands. Where several
choices decide it, the one with few cells of the trace is taken, and cells
that several parts share count once.
"""

from __future__ import annotations

from collections import deque
from dataclasses import dataclass, field
from typing import Iterable, Iterator, Mapping, Optional, Sequence, Union

from r2u2tools.common.program_text import Node
from r2u2tools.why.part_verdicts import FALSE, TRUE, UNKNOWN, Part, Verdicts

NEVER = float("inf")
# Derivations are tried again, and without single cells, while that many steps are enough for all together.
MOST_WORK = 1_500_000
Cell = tuple[str, int]
# A choice: the time that a window picks, or which operand of a conjunction; None where there is none.
Pick = Optional[int]


@dataclass
class CellCosts:
    """What each cell costs: some their own number, all others one number. A cell that may not be used costs NEVER."""

    others: float = 1.0
    own: Mapping[Cell, float] = field(default_factory=dict)

    def of_leaf(self, _ref: str, names: Sequence[str], low: int, high: int) -> list[float]:
        """What the cells of a signal or comparison cost together, at each time from one to another."""
        costs = [self.others * len(names) if names else 0.0] * (high - low + 1)
        if not self.own:
            return costs
        wanted = set(names)
        for time in {time for name, time in self.own if name in wanted and low <= time <= high}:
            costs[time - low] = sum(self.own.get((name, time), self.others) for name in names)
        return costs


class LeafCosts:
    """A signal or comparison costs nothing at a time where its word is known, or where its cells are, and else 1."""

    def __init__(self, known: Iterable[tuple[str, int]], cells: frozenset[Cell]) -> None:
        self.known, self.cells = known, cells

    def is_fixed(self, names: Sequence[str], time: int) -> bool:
        return all((name, time) in self.cells for name in names)

    def of_leaf(self, ref: str, names: Sequence[str], low: int, high: int) -> list[float]:
        """What a signal or comparison costs at each time from one to another."""
        return [float((ref, time) not in self.known and not self.is_fixed(names, time)) for time in range(low, high + 1)]


class Least:
    """The last place of the least of some numbers, between two bounds that only rise."""

    def __init__(self, numbers: Sequence[float]) -> None:
        self.numbers, self.next, self.places = numbers, 0, deque[int]()

    def between(self, low: int, high: int) -> Pick:
        for place in range(self.next, high + 1):
            if self.numbers[place] < NEVER:
                while self.places and self.numbers[self.places[-1]] >= self.numbers[place]:
                    self.places.pop()
                self.places.append(place)
        self.next = max(self.next, high + 1)
        while self.places and self.places[0] < low:
            self.places.popleft()
        return self.places[0] if self.places else None


class Stretch:
    """How far a list goes on with a word that costs less than NEVER; the places only rise."""

    def __init__(self, side: Side, word: int) -> None:
        self.side, self.word, self.end = side, word, 0

    def after(self, place: int) -> int:
        self.end = max(self.end, place)
        while self.end < len(self.side.words) and self.side.has(self.end, self.word):
            self.end += 1
        return self.end


@dataclass
class Side:
    """The verdicts and the costs of an operand, by place."""

    words: Sequence[int]
    costs: Sequence[float]

    def has(self, place: int, word: int) -> bool:
        """Whether the operand has a word, and cells that may be used say so."""
        return self.words[place] == word and self.costs[place] < NEVER

    def sums(self, word: int) -> list[float]:
        """The sums of the costs of all places before each one; a place of another word costs nothing."""
        total, found = 0.0, [0.0]
        for its, cost in zip(self.words, self.costs):
            total += cost if its == word and cost < NEVER else 0.0
            found.append(total)
        return found

    def costs_of(self, word: int, more: Iterable[float]) -> list[float]:
        """The costs where the operand has a word, each with a further number."""
        return [cost + it if its == word else NEVER for its, cost, it in zip(self.words, self.costs, more)]


class Window:
    """What decides an until or a since at each of its times.

    Places count from the first time on; of a since from the last time back, so
    that it reads as an until whose left operand counts from the time itself.
    The left operand is asked from `start` on, the right one from `low` to `high`.
    """

    def __init__(self, node: Node, left: Side, right: Side) -> None:
        self.start = node.low if node.op == "U" else 0
        self.low, self.high, self.end = node.low, node.high, len(right.words) - 1
        self.left, self.right = left, right
        self.held, self.missed = left.sums(TRUE), right.sums(FALSE)
        self.left_holds, self.right_fails = Stretch(left, TRUE), Stretch(right, FALSE)
        self.hits = Least(right.costs_of(TRUE, self.held))
        self.early = Least(left.costs_of(FALSE, [0.0] * len(self.held)))
        self.late = Least(left.costs_of(FALSE, self.missed[1:]))

    def true(self, place: int) -> tuple[float, Pick]:
        """The cells that it takes that it holds, and where the right operand does."""
        last = min(place + self.high, self.end, self.left_holds.after(place + self.start))
        hit = self.hits.between(place + self.low, last)
        return (NEVER, None) if hit is None else (self.hits.numbers[hit] - self.held[place + self.start], hit)

    def false(self, place: int) -> tuple[float, Pick]:
        """The cells that it takes that it doesn't, and where the left operand fails; None where it needn't."""
        first, last = min(place + self.low, self.end + 1), min(place + self.high, self.end)
        fails = self.right_fails.after(first)
        found: list[tuple[float, Pick]] = []
        early = self.early.between(place + self.start, first - 1)
        late = self.late.between(first, min(place + self.high - 1, self.end, fails - 1))
        found += [(self.early.numbers[early], early)] if early is not None else []
        found += [(self.late.numbers[late] - self.missed[first], late)] if late is not None else []
        found += [(self.missed[last + 1] - self.missed[first], None)] if fails > last else []
        return min(found, key=lambda pair: pair[0], default=(NEVER, None))

    def by(self, word: int, place: int) -> tuple[float, Pick]:
        return (NEVER, None) if word == UNKNOWN else self.true(place) if word == TRUE else self.false(place)


@dataclass(frozen=True)
class Demand:
    """An operand with the word that it has to have from one time to another."""

    ref: str
    word: int
    first: int
    last: int


class Derivation:
    """How the verdict of an output at a time follows from those of its parts, down to cells that cost little.

    `cost` is NEVER of a part that doesn't follow from the cells that may be used.
    """

    def __init__(self, verdicts: Verdicts, costs: Union[CellCosts, LeafCosts]) -> None:
        self.verdicts, self.parts, self.costs = verdicts, verdicts.parts, costs
        self.cost: dict[str, list[float]] = {}
        self.pick: dict[str, list[Pick]] = {}
        # What is chosen: of each part the times at which its word counts, and how many ways lead there.
        self.chosen: dict[str, dict[int, float]] = {}
        for ref in self.parts.refs:
            self.weigh(ref)

    def weigh(self, ref: str) -> None:
        node, part = self.parts.node(ref), self.verdicts.by_ref[ref]
        if node is None:
            costs = self.costs.of_leaf(ref, self.parts.shown.signals_of(ref), part.low, part.high)
            self.cost[ref] = [NEVER if word == UNKNOWN else cost for word, cost in zip(part.words, costs)]
        elif node.op in ("!", "&&"):
            self.weigh_row(ref, node, part)
        else:
            self.weigh_window(ref, node, part)

    def side(self, ref: str, low: int, high: int, back: bool = False) -> Side:
        part = self.verdicts.by_ref[ref]
        cut, step = slice(low - part.low, high + 1 - part.low), -1 if back else 1
        return Side(part.words[cut][::step], self.cost[ref][cut][::step])

    def weigh_row(self, ref: str, node: Node, part: Part) -> None:
        sides = [self.side(operand, part.low, part.high) for operand in node.operands()]
        if node.op == "!":
            self.cost[ref] = list(sides[0].costs)
            return
        both = [one + other for one, other in zip(sides[0].costs, sides[1].costs)]
        fails = list(zip(*(side.costs_of(FALSE, [0.0] * len(both)) for side in sides)))
        self.pick[ref] = [0 if one <= other else 1 for one, other in fails]
        by_word = {TRUE: both, FALSE: [min(pair) for pair in fails], UNKNOWN: [NEVER] * len(both)}
        self.cost[ref] = [by_word[word][k] for k, word in enumerate(part.words)]

    def weigh_window(self, ref: str, node: Node, part: Part) -> None:
        back = node.op == "S"
        low, high = (max(0, part.low - node.high), part.high) if back else (part.low, part.high + node.high)
        sides = [self.side(operand, low, high, back) for operand in node.operands()]
        window = Window(node, *sides)
        found = [window.by(word, place) for place, word in enumerate(reversed(part.words) if back else part.words)]
        if back:
            found = [(cost, pick if pick is None else high - pick) for cost, pick in reversed(found)]
        else:
            found = [(cost, pick if pick is None else low + pick) for cost, pick in found]
        self.cost[ref], self.pick[ref] = [cost for cost, _ in found], [pick for _, pick in found]

    def follows(self, roots: Sequence[tuple[str, int]]) -> bool:
        """Whether what some parts have at some times follows from the cells that may be used."""
        return all(self.cost[ref][time - self.verdicts.by_ref[ref].low] < NEVER for ref, time in roots)

    def choose(self, roots: Sequence[tuple[str, int]]) -> frozenset[Cell]:
        """Takes one way for each part that counts, from the roots down, and gives the cells at its end."""
        self.chosen = {ref: {} for ref in self.parts.refs}
        for ref, time in roots:
            self.chosen[ref][time] = 1.0
        for ref in reversed(self.parts.refs):
            if (node := self.parts.node(ref)) and self.chosen[ref]:
                self.choose_of(ref, node)
        return frozenset(self.uses())

    def uses(self) -> dict[Cell, float]:
        """The cells that are chosen, each with how many ways lead to it."""
        found: dict[Cell, float] = {}
        for ref, times in self.chosen.items():
            if self.parts.node(ref) is None:
                for name in self.parts.shown.signals_of(ref):
                    for time, ways in times.items():
                        found[name, time] = found.get((name, time), 0.0) + ways
        return found

    def choose_of(self, ref: str, node: Node) -> None:
        """Passes on what one part needs. A window takes what the one before it took, where it can: that costs nothing more."""
        part, times = self.verdicts.by_ref[ref], self.chosen[ref]
        latest: dict[int, Pick] = {}
        for time in sorted(times, reverse=node.op == "S"):
            word, k = part.at(time), time - part.low
            if node.op in "US":
                kept = latest.get(word)
                if kept is not None and self.still_decides(node, word, time, kept):
                    self.pick[ref][k] = kept
                latest[word] = self.pick[ref][k]
            elif node.op == "&&" and word == FALSE:
                self.pick[ref][k] = self.cheaper(node, time, self.pick[ref][k])
            for it in self.demands(ref, word, time):
                chosen = self.chosen[it.ref]
                for at in range(it.first, it.last + 1):
                    chosen[at] = chosen.get(at, 0.0) + times[time]

    def still_decides(self, node: Node, word: int, time: int, kept: int) -> bool:
        """Whether the pick of a neighbouring time decides this one too, for which nothing more is needed."""
        if node.op == "S" and word == FALSE:
            return time - node.high < kept <= time
        low, high = (time + node.low, time + node.high) if node.op == "U" else (time - node.high, time - node.low)
        return low <= kept <= high

    def cheaper(self, node: Node, time: int, pick: Pick) -> Pick:
        """The operand of a conjunction that is false and counts already, else the one with fewer cells."""
        for k, ref in enumerate(node.operands()):
            part = self.verdicts.by_ref[ref]
            if time in self.chosen[ref] and part.at(time) == FALSE and self.cost[ref][time - part.low] < NEVER:
                return k
        return pick

    def demands(self, ref: str, word: int, time: int) -> Iterator[Demand]:
        """The operands of a part, with the verdicts and times that its own follows from."""
        node = self.parts.node(ref)
        for it in self.all_demands(ref, node, word, time) if node else ():
            if it.first <= it.last:
                yield it

    def all_demands(self, ref: str, node: Node, word: int, time: int) -> list[Demand]:
        left, right = node.left, node.right
        if node.op == "!":
            return [Demand(left, 1 - word, time, time)]
        if node.op == "&&" and word == TRUE:
            return [Demand(operand, TRUE, time, time) for operand in node.operands()]
        pick = self.pick[ref][time - self.verdicts.by_ref[ref].low]
        if node.op == "&&":
            return [Demand(right if pick else left, FALSE, time, time)]
        ahead = node.op == "U"
        first, last = (time + node.low, time + node.high) if ahead else (max(0, time - node.high), time - node.low)
        if pick is None:
            return [Demand(right, FALSE, first, last)]
        if word == TRUE:
            since = Demand(left, TRUE, first, pick - 1) if ahead else Demand(left, TRUE, pick + 1, time)
            return [Demand(right, TRUE, pick, pick), since]
        fails = Demand(right, FALSE, first, min(last, pick)) if ahead else Demand(right, FALSE, max(first, pick), last)
        return [fails, Demand(left, FALSE, pick, pick)]

    def size(self) -> int:
        return sum(map(len, self.cost.values()))


def derivation(verdicts: Verdicts, roots: Sequence[tuple[str, int]], rounds: int = 6) -> Derivation:
    """A derivation of few cells: what many ways share becomes cheap, until there are no fewer; then none can be left out."""
    best = Derivation(verdicts, CellCosts())
    cells = best.choose(roots)
    for _ in range(min(rounds, MOST_WORK // best.size())):
        other = Derivation(verdicts, CellCosts(NEVER, {cell: 1.0 / ways for cell, ways in best.uses().items()}))
        fewer = other.choose(roots)
        if len(fewer) >= len(cells):
            break
        best, cells = other, fewer
    return without_spare(best, cells, roots) if len(cells) * best.size() <= MOST_WORK else best


def without_spare(best: Derivation, cells: frozenset[Cell], roots: Sequence[tuple[str, int]]) -> Derivation:
    """A derivation by some of the cells of another one, of which none can be left out."""
    for cell in sorted(cells, key=lambda cell: (cell[1], cell[0])):
        if cell not in cells:
            continue
        other = Derivation(best.verdicts, CellCosts(NEVER, dict.fromkeys(cells - {cell}, 1.0)))
        if other.follows(roots):
            best, cells = other, other.choose(roots)
    return best
