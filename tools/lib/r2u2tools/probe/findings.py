"""What logs say of the requirements of a specification: which were tried, and what about them the logs would notice."""

from __future__ import annotations

from dataclasses import dataclass, field
from typing import Optional, Sequence

from r2u2tools.common.expressions import Expression, plain
from r2u2tools.common.progress import Progress
from r2u2tools.common.verdict_runs import verdict_runs
from r2u2tools.probe.margins import described, margins
from r2u2tools.probe.mutants import Mutant, constants, mutants, parts
from r2u2tools.probe.requirements import Requirement, Source, agreement
from r2u2tools.probe.trials import Trial, Trials

BROKEN = ("F", "invalid")


@dataclass
class Change:
    """A change that no log notices."""

    kind: str
    line: int
    column: int
    old: str
    new: str


@dataclass
class Unused:
    """A part that never decided a verdict: with true in its place, and with false, all verdicts are the same."""

    line: int
    column: int
    text: str


@dataclass
class Limit:
    """A number of a requirement that is never false: the last other value with which that is so, and the first without."""

    line: int
    column: int
    text: str
    value: int
    holds: int
    fails: int


@dataclass
class Finding:
    """What was found of one requirement. `tried` is None where it has no left side."""

    name: str
    verdicts: int = 0
    broken: int = 0
    tried: Optional[bool] = None
    mutants: int = 0
    noticed: int = 0
    unnoticed: list[Change] = field(default_factory=list)
    unused: list[Unused] = field(default_factory=list)
    margins: list[Limit] = field(default_factory=list)

    def was_tried(self) -> bool:
        return self.verdicts > 0 and self.tried is not False


class Probe:
    """Probes the requirements of a specification over logs."""

    def __init__(self, source: Source, trials: Trials) -> None:
        self.source, self.trials = source, trials

    def findings(self, with_margins: bool) -> list[Finding]:
        found, progress = {it.name: Finding(it.name) for it in self.source.requirements()}, Progress()
        progress.tell("counting verdicts")
        self.count(found)
        for number, requirement in enumerate(self.source.requirements(), 1):
            finding, where = found[requirement.name], f"{requirement.name}, {number} of {len(found)}"
            progress.tell(f"{where}: changes")
            finding.tried = self.was_tried(requirement)
            self.mutate(requirement, finding)
            progress.tell(f"{where}: parts")
            finding.unused = self.unused(requirement)
            if with_margins and finding.verdicts and not finding.broken:
                progress.tell(f"{where}: margins")
                finding.margins = self.margins(requirement)
        progress.done()
        return list(found.values())

    def count(self, found: dict[str, Finding]) -> None:
        """Counts the verdicts, and those that are F or invalid."""
        for log in self.trials.logs:
            runs = verdict_runs(self.source.given.path, log, self.trials.timed, source=True)
            for name, words in runs.items():
                found[name].verdicts += words.end()
                found[name].broken += sum(last - first + 1 for first, last, word in words if word in BROKEN)

    def was_tried(self, requirement: Requirement) -> Optional[bool]:
        """Whether the left side of a requirement held at some row; None where it has no left side."""
        tree = self.source.tree(requirement.number)
        left = left_side(tree) if tree else None
        if left is None:
            return None
        body = self.source.items[requirement.number].body
        formula = " ".join(token.text for token in body[left.first : left.last])
        return self.trials.false([Trial(requirement.section, f"!({formula})")])[0] is True

    def trial(self, requirement: Requirement, mutant: Mutant, label: str) -> Trial:
        definitions, body = self.source.with_edit(requirement, mutant.edit, label)
        return Trial(requirement.section, agreement(self.source.body(requirement), body), definitions)

    def without_reach(self, requirement: Requirement, asked: Sequence[Mutant]) -> set[int]:
        """Which changes leave a requirement as it is, since they are in what it doesn't read, as in another part of a struct."""
        trials = [Trial(requirement.section, body, lines) for lines, body in self.edits(requirement, asked)]
        return self.trials.alike(Trial(requirement.section, self.source.body(requirement)), trials)

    def edits(self, requirement: Requirement, asked: Sequence[Mutant]) -> list[tuple[str, str]]:
        return [self.source.with_edit(requirement, mutant.edit, str(k)) for k, mutant in enumerate(asked)]

    def mutate(self, requirement: Requirement, finding: Finding) -> None:
        """Tries each small change: a log notices it where it has another verdict somewhere."""
        asked = list(mutants(self.source, requirement))
        left_out = self.without_reach(requirement, asked)
        tried = [mutant for k, mutant in enumerate(asked) if k not in left_out]
        false = self.trials.false([self.trial(requirement, mutant, str(k)) for k, mutant in enumerate(tried)])
        finding.mutants = len(tried) - false.count(None)
        finding.noticed = false.count(True)
        finding.unnoticed = [
            Change(it.kind, it.place.line, it.place.column, it.old, it.new) for it, noticed in zip(tried, false) if noticed is False
        ]

    def unused(self, requirement: Requirement) -> list[Unused]:
        """The largest parts that never decided a verdict."""
        found, asked = list(parts(self.source, requirement)), list[Mutant]()
        for part, number in found:
            body = self.source.items[number].body
            text = plain(self.source.text, body[part.first : part.last])
            asked += constants(part, number, body, self.source.place(body[part.first]), text)
        false = self.trials.false([self.trial(requirement, mutant, str(k)) for k, mutant in enumerate(asked)])
        unread = self.without_reach(requirement, asked)
        told: list[tuple[int, Expression]] = []
        result = []
        for k, (part, number) in enumerate(found):
            inside = any(number == item and outer.first <= part.first and part.last <= outer.last for item, outer in told)
            if false[2 * k] is False and false[2 * k + 1] is False and not inside and not unread >= {2 * k, 2 * k + 1}:
                told.append((number, part))
                place = asked[2 * k].place
                result.append(Unused(place.line, place.column, asked[2 * k].old))
        return result

    def margins(self, requirement: Requirement) -> list[Limit]:
        return [
            Limit(
                it.place.line, it.place.column, described(self.source, it),
                it.sign * it.value, it.sign * it.holds, it.sign * it.fails,
            )
            for it in margins(self.source, requirement, self.trials)
            if it.fails is not None and it.holds != it.value
        ]


def left_side(tree: Expression) -> Optional[Expression]:
    """The left side of a requirement: of its implication or contract, also below brackets and a G or an H."""
    found = tree.bare()
    while found.op in ("G", "H"):
        found = found.parts[0].bare()
    return found.parts[0] if found.op in ("->", "=>") else None


def untried(findings: Sequence[Finding]) -> list[str]:
    return [it.name for it in findings if not it.was_tried()]


def noticed_share(findings: Sequence[Finding]) -> float:
    """How many of all changes the logs notice, in percent."""
    total = sum(it.mutants for it in findings)
    return 100 * sum(it.noticed for it in findings) / total if total else 100.0
