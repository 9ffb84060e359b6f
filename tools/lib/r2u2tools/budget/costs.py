"""What a program costs before it runs: its instructions, sizes and delays, as the table of c2po has them."""

from __future__ import annotations

from typing import Callable, Iterable, Mapping

from r2u2tools.common.compiled import Compiled
from r2u2tools.common.program_file import NO_OPERANDS, Instruction, Place

# Instructions that the text of a program writes as what they read.
NO_LINE = (*NO_OPERANDS, "load")


class Costs:
    """The instructions of a program, by part and number, and what each of its outputs reads."""

    def __init__(self, made: Compiled) -> None:
        self.made, self.shown = made, made.shown
        self.width = int.from_bytes(made.flown()[8:12], "little")
        self.all, self.refs = made.program.instructions, made.shown.refs
        self.best, self.worst = delays(self.all, min), delays(self.all, max)
        self.roots = {output.name: output.roots for output in made.program.outputs}
        self.cones = {name: self.below(roots) for name, roots in self.roots.items()}
        self.readers: dict[Place, list[str]] = {place: [] for place in self.all}
        for name, cone in self.cones.items():
            for place in cone:
                self.readers[place].append(name)

    def below(self, roots: Iterable[Place]) -> set[Place]:
        """The places of all instructions that some read, with themselves."""
        found: set[Place] = set()
        left = list(roots)
        while left:
            place = left.pop()
            if place not in found:
                found.add(place)
                left += self.all[place].reads
        return found

    def count(self, places: Iterable[Place], part: str) -> int:
        return sum(place[0] == part for place in places)

    def sizes(self, places: Iterable[Place], part: str) -> int:
        """The slots of future time, or the boxes of past time."""
        return sum(self.all[place].size for place in places if place[0] == part)

    def delay(self, name: str) -> int:
        """The worst-case delay of an output in rows; past time has none."""
        return max(self.worst[place] for place in self.roots[name])

    def reports(self, name: str) -> int:
        """The most reports of an output in one row, as `most_over` states them over the delays of what it reports."""
        return self.delay(name) - self.best[self.roots[name][0]] + 1

    def steps(self, places: Iterable[Place]) -> int:
        return sum(map(self.work, places))

    def work(self, place: Place) -> int:
        """The most steps of an instruction in one row, as `row_work` states them over its size and those of its operands."""
        it = self.all[place]
        if place[0] == "ft":
            return 4 * (max([self.all[place].size for place in it.reads if place[0] == "ft"], default=0) + it.size + 2)
        return it.size + 2 if place[0] == "pt" else 2

    def ref(self, place: Place) -> str:
        """How the text of the program calls a formula; a conjunction of which only the denial is read, as that."""
        above = [it for it in self.all if place in self.all[it].reads]
        read = len(above) > 1 or any(place in roots for roots in self.roots.values())
        if self.all[place].op == "and" and not read and self.all[above[0]].op == "not":
            return self.refs[above[0]]
        return self.refs[place]

    def operators(self) -> list[Place]:
        """The places of instructions that have a line in the text, but those of integers."""
        return [place for place, it in self.all.items() if it.op not in NO_LINE and self.shown.is_truth(self.refs[place])]

    def costliest(self, count: int) -> list[Place]:
        """The places of future and past time that take the most slots or boxes, and among equals the most steps."""
        places = [place for place in self.operators() if place[0] != "bz" and self.all[place].op != "not"]
        return sorted(places, key=lambda it: (-self.all[it].size, -self.work(it)))[:count]

    def shared(self) -> list[Place]:
        """The places that several outputs read and that no larger part of the same outputs reads, with those outputs."""
        readers = {place: self.readers[place] for place in self.operators()}
        inner = {place for it in self.all for place in self.all[it].reads if readers.get(place) == readers.get(it)}
        return [place for place, names in readers.items() if len(names) > 1 and place not in inner]


def delays(found: Mapping[Place, Instruction], of: Callable[[Iterable[int]], int]) -> dict[Place, int]:
    """The best or the worst delay of each formula of future time, in rows; others have none."""
    rows: dict[Place, int] = {}
    for place, it in found.items():
        inner = [rows[operand] for operand in it.reads if place[0] == operand[0] == "ft"]
        rows[place] = of(inner) + (it.low if of is min else it.high) if inner else 0
    return rows
