"""How what two versions of a specification cost differs."""

from __future__ import annotations

from dataclasses import dataclass

from r2u2tools.budget.costs import Costs
from r2u2tools.common.program_file import PARTS
from r2u2tools.compare.differences import Version

KINDS = (*PARTS, "slots", "boxes", "delay", "steps", "reports")


@dataclass(frozen=True)
class CostChange:
    """A figure of the whole of both versions: instructions, slots, boxes, rows of delay, steps and reports of a row."""

    kind: str
    old: int
    new: int


def figures(version: Version) -> dict[str, int]:
    costs = Costs(version.made)
    places, names = set(costs.all), list(costs.cones)
    found = {part: costs.count(places, part) for part in PARTS}
    found["slots"], found["boxes"] = costs.sizes(places, "ft"), costs.sizes(places, "pt")
    found["delay"], found["steps"] = max(map(costs.delay, names), default=0), costs.steps(places)
    found["reports"] = sum(map(costs.reports, names))
    return found


def cost_changes(old: Version, new: Version) -> list[CostChange]:
    before, after = figures(old), figures(new)
    return [CostChange(kind, before[kind], after[kind]) for kind in KINDS]
