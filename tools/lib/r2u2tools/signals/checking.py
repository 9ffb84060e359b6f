"""Compares a file of signals with the columns of a specification."""

from __future__ import annotations

from dataclasses import dataclass
from difflib import get_close_matches
from typing import Iterable

from r2u2tools.signals.model import Signals


@dataclass(frozen=True)
class Fault:
    """What is wrong, and its line: of the file of signals, or of the specification if `in_spec` is set."""

    line: int
    text: str
    in_spec: bool = False


def check(columns: Iterable[tuple[str, str, int]], signals: Signals) -> list[Fault]:
    """Returns each column that no signal makes, each signal that no column needs, and each signal of the wrong kind.

    `columns` are names, kinds (`bool` or `int`) and lines of a specification's inputs.
    """
    wanted = {name: (kind, line) for name, kind, line in columns}
    made = signals.by_name()
    faults = []
    for name, (kind, line) in wanted.items():
        if name not in made:
            near = get_close_matches(name, [it for it in made if it not in wanted], 1)
            faults.append(Fault(line, f"no signal makes the column {name}" + (f" (did you mean {near[0]}?)" if near else ""), True))
        elif kind == "bool" and not made[name].is_truth:
            faults.append(Fault(made[name].line, f"{name} is bool in the specification, and this signal may be other than 0 and 1: {advice(made[name].take)}"))
    faults += [Fault(it.line, f"no column needs the signal {it.name}") for it in signals.columns if it.name not in wanted]
    return sorted(faults, key=lambda it: (it.in_spec, it.line))


def advice(take: str) -> str:
    return "compare it in the specification" if take else 'type = "bool", bit, or a comparison in the specification'
