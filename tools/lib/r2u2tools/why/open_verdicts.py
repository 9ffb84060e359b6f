"""What an open verdict waits for: the rows to come on which it may depend."""

from __future__ import annotations

from typing import Optional

from r2u2tools.common.program_text import Node
from r2u2tools.why.part_verdicts import FALSE, TRUE, UNKNOWN, Verdicts

Below = dict[tuple[str, int], set[int]]


class OpenVerdicts:
    """Follows what isn't known from a formula to its signals.

    `held` has the parts whose verdict of a time follows from what is known, and waits only for those of earlier times:
    the time for which it waits, by part and time.
    """

    def __init__(self, verdicts: Verdicts) -> None:
        self.verdicts, self.parts = verdicts, verdicts.parts
        self.held: dict[tuple[str, int], int] = {}
        self.constant = constants(verdicts)

    def at(self, ref: str, time: int) -> int:
        """The word of a part at a time, which a constant one has of rows to come too."""
        word = self.verdicts.at(ref, time)
        return self.constant[ref][0] if word == UNKNOWN else word

    def below(self, ref: str, _: int, times: set[int]) -> Below:
        """What open verdicts of a part wait for: operands with times. Where a part's own operands decide it, it waits for
        its verdict of an earlier time."""
        found: Below = {}
        for time in sorted(times):
            for operand, at in self.missing(ref, time):
                found.setdefault((operand, UNKNOWN), set()).add(at)
        return found

    def first(self, ref: str, time: int) -> int:
        """The time for whose verdict that of a time waits: its own, or an earlier one where its own is decided."""
        inner = self.parts.shown.within(ref)
        if inner != ref:
            return self.first(inner, time)
        if self.parts.node(ref) is None or self.missing(ref, time):
            return time
        self.held[ref, time] = self.verdicts.by_ref[ref].known
        return self.held[ref, time]

    def missing(self, ref: str, time: int) -> list[tuple[str, int]]:
        """The operands, and their times, that keep a part from being decided by itself at a time."""
        if self.constant[ref][0] != UNKNOWN and ref != "true":
            return [("true", time + self.constant[ref][1])]
        open_ones = [pair for pair in self.asked_of(ref, time) if self.verdicts.at(*pair) == UNKNOWN]
        found = [(operand, self.first(operand, at)) for operand, at in open_ones if self.constant[operand][0] == UNKNOWN]
        return found or [("true", max(at + self.constant[operand][1] for operand, at in open_ones))] if open_ones else []

    def asked_of(self, ref: str, time: int) -> list[tuple[str, int]]:
        """The operands of a part, and their times, which decide it at a time."""
        node = self.parts.node(ref)
        if node is None:
            return []
        if node.op == "U":
            return self.of_until(node, time)
        words = [self.at(operand, time) for operand in node.operands()]
        return [] if FALSE in words and node.op == "&&" else [(operand, time) for operand in node.operands()]

    def of_until(self, node: Node, time: int) -> list[tuple[str, int]]:
        """The operands over the window, up to where the right one holds or the left one fails."""
        left, right, hit = [], [], time - 1
        for at in range(time + node.low, time + node.high + 1):
            right.append((node.right, at))
            word = self.at(node.right, at)
            hit = at if word != FALSE else hit
            if word == TRUE or self.at(node.left, at) == FALSE:
                break
            left.append((node.left, at))
        return right + [(operand, at) for operand, at in left if at < hit]

    def only_held(self, ref: str, time: int) -> Optional[tuple[str, int, int]]:
        """The part for whose earlier verdict alone an open one waits, with the time that matters and the earlier one."""
        waiting = {self.parts.shown.bare(ref)[0]: {time}}
        while len(waiting) == 1:
            ((part, times),) = waiting.items()
            if all((part, at) in self.held for at in times):
                return part, min(times), self.held[part, min(times)]
            if any((part, at) in self.held for at in times):
                return None
            waiting = {}
            for operand, at in (pair for at in times for pair in self.wanted(part, at)):
                waiting.setdefault(self.parts.shown.bare(operand)[0], set()).add(at)
        return None

    def wanted(self, ref: str, time: int) -> list[tuple[str, int]]:
        """The operands of a part, and their times, as its own window asks for them."""
        node = self.parts.node(ref)
        if node is None:
            return []
        found = self.of_until(node, time) if node.op == "U" else [(operand, time) for operand in node.operands()]
        return [(operand, at) for operand, at in found if self.verdicts.at(operand, at) == UNKNOWN]


def constants(verdicts: Verdicts) -> dict[str, tuple[int, int]]:
    """The word that a part has whatever the rows hold, with how many rows later it is known; UNKNOWN of others."""
    found: dict[str, tuple[int, int]] = {}
    for ref in verdicts.parts.refs:
        node = verdicts.parts.node(ref)
        if node is None:
            known = [] if verdicts.parts.shown.signals_of(ref) else [it for it in verdicts.by_ref[ref].words if it != UNKNOWN]
            found[ref] = (TRUE if ref == "true" else known[0] if known else UNKNOWN), 0
        else:
            found[ref] = constant(node, found[node.left], found[node.right or node.left])
    return found


def constant(node: Node, left: tuple[int, int], right: tuple[int, int]) -> tuple[int, int]:
    """The same of a part by its operands. A left operand counts from the beginning of the window on."""
    if node.op == "!":
        return {TRUE: FALSE, FALSE: TRUE}.get(left[0], UNKNOWN), left[1]
    if node.op == "&&":
        false = [rows for word, rows in (left, right) if word == FALSE]
        both = left[0] == right[0] == TRUE
        return (FALSE, min(false)) if false else (TRUE if both else UNKNOWN, max(left[1], right[1]))
    ahead = node.op == "U"
    if right[0] == FALSE:
        return FALSE, right[1] + node.high * ahead
    return (TRUE, right[1] + node.low * ahead) if right[0] == TRUE and (ahead or node.low == 0) else (UNKNOWN, 0)
