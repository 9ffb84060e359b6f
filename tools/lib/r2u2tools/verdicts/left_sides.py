"""How often the left side of an implication or of a contract was true.

A contract shows it by its words: it is inactive where its left side is
false. Of a formula the left side is made an output of a specification of its
own, with the signals and definitions of the first, and r2u2 watches it over the
same trace. So the counts are counts of proved verdicts.
"""

from __future__ import annotations

import tempfile
from typing import Optional

from r2u2tools.common import cli
from r2u2tools.common.rerun import TOLD, as_text, fresh, made
from r2u2tools.common.r2u2_run import Command
from r2u2tools.common.cli import ToolError
from r2u2tools.common.source import Token
from r2u2tools.common.specs import Output, Spec
from r2u2tools.verdicts.counts import Result, counted

OPEN, CLOSE = "([{", ")]}"
# What is true somewhere in a window or in a set, for what is to hold everywhere in it.
SOMEWHERE = {"G": "F", "H": "O"}


def from_contracts(result: Result) -> None:
    """The left sides of contracts, by their words."""
    for output in result.outputs.values():
        if set(output.words) & {"inactive", "invalid", "verified"}:
            output.left = {"true": output.decided - output.words.get("inactive", 0), "of": output.decided}


def at_top(tokens: list[Token], sign: str) -> Optional[int]:
    """The place of the first such sign outside all brackets, or None."""
    depth = 0
    for k, token in enumerate(tokens):
        depth += (token.text in OPEN) - (token.text in CLOSE)
        if depth == 0 and token.text == sign:
            return k
    return None


def closing(tokens: list[Token], k: int) -> Optional[int]:
    """The place of the bracket that closes the one at k."""
    depth = 0
    for place in range(k, len(tokens)):
        depth += (tokens[place].text in OPEN) - (tokens[place].text in CLOSE)
        if depth == 0:
            return place
    return None


class Sides:
    """Finds left sides in the text of one specification."""

    def __init__(self, spec: Spec) -> None:
        self.text = spec.text
        self.definitions = {item.name: item.body for item in spec.items if item.section == "DEFINE"}

    def of(self, tokens: list[Token]) -> Optional[str]:
        """The text of a formula that is true where the implication is tried, or None where it is none."""
        if not tokens or at_top(tokens, "=>") is not None or at_top(tokens, "<->") is not None:
            return None
        arrow = at_top(tokens, "->")
        if arrow is not None:
            return self.text[tokens[0].start : tokens[arrow - 1].end] if arrow else None
        first = tokens[0].text
        if len(tokens) == 1:
            return self.of(self.definitions.pop(first, []))
        if first == "(" and closing(tokens, 0) == len(tokens) - 1:
            return self.of(tokens[1:-1])
        if first in SOMEWHERE:
            return self.everywhere(tokens, SOMEWHERE[first])
        return self.of_each(tokens) if first == "foreach" else None

    def everywhere(self, tokens: list[Token], somewhere: str) -> Optional[str]:
        """Of G or H over an implication: the left side holds somewhere in the window."""
        end = closing(tokens, 1)
        if end is None or end + 1 >= len(tokens) or tokens[1].text != "[":
            return None
        rest = tokens[end + 1 :]
        whole = rest[0].text == "(" and closing(rest, 0) == len(rest) - 1
        left = self.of(rest) if whole or len(rest) == 1 or rest[0].text in (*SOMEWHERE, "foreach") else None
        return left and f"{somewhere}{self.text[tokens[1].start : tokens[end].end]} ({left})"

    def of_each(self, tokens: list[Token]) -> Optional[str]:
        """Of an implication for each member of a set: the left side holds of some member."""
        end = closing(tokens, 1)
        if end is None or end + 1 >= len(tokens) or closing(tokens, end + 1) != len(tokens) - 1:
            return None
        left = self.of(tokens[end + 2 : -1])
        return left and f"forsome{self.text[tokens[1].start : tokens[end].end]}({left})"


def shown_side(output: Output, forms: dict[Optional[str], list[Token]]) -> Optional[str]:
    """The left side in the text of a program, where an implication is a negated conjunction."""
    form = forms.get(output.body[0].text, []) if len(output.body) == 1 else []
    if len(form) == 2 and form[0].text == "!":
        form = forms.get(form[1].text, [])
        if len(form) == 3 and form[1].text == "&&":
            return form[0].text
    return None


def sides_of(spec: Spec, compiled: bool) -> dict[str, str]:
    """The left side of each output that has one, by the output's name."""
    if compiled:
        forms = {item.name: item.body for item in spec.items if item.section == "DEFINE"}
        found = {output.name: shown_side(output, forms) for output in spec.outputs}
    else:
        found = {output.name: Sides(spec).of(output.body) for output in spec.outputs}
    return {name: side for name, side in found.items() if side}


def watched(spec: Spec, sides: dict[str, str]) -> tuple[str, dict[str, str]]:
    """The specification whose outputs are the left sides, and of each the output that it belongs to."""
    stem = fresh(spec, "left")
    parts = [f"{it.section} {spec.text[it.start : it.end]};" for it in spec.items if it.section not in TOLD]
    names: dict[str, str] = {}
    for k, output in enumerate(spec.outputs):
        if output.name in sides:
            names[f"{stem}{k}"] = output.name
            parts.append(f"{output.section} {stem}{k}: {sides[output.name]};")
    return "\n".join([*parts, ""]), names


def watch(command: Command, result: Result, folder: str) -> None:
    """Runs r2u2 over the left sides, and gives its counts to the outputs of the result."""
    words = command.r2u2
    assert words and words.file
    spec, given = as_text(words.file, "left sides")
    text, names = watched(spec, sides_of(spec, given.is_program()))
    if not names:
        return
    file = made(given, text, folder, "left sides")
    again = Command([command.words[0], *words.with_file(file, not given.is_program())])
    left = Result("left sides")
    again.run(lambda lines: counted(lines, left), left)
    result.stopped = left.stopped
    if left.failed:
        raise ToolError(f"left sides: {left.failed[0]['message']}")
    for name, output in names.items():
        told = left.outputs.get(name)
        result.output(output).left = {"true": told.words.get("T", 0), "of": told.decided} if told else {"true": 0, "of": 0}


def runs_twice(command: Command) -> None:
    """ToolError where a command can't be run over the same trace once more."""
    words = command.r2u2
    if not words or words.file in (None, "-") or words.trace == "-":
        raise ToolError("--exercised runs r2u2 twice: name a specification or program, and a trace, that are files")


def exercised(command: Command, result: Result) -> None:
    """Adds to each output of the result how often its left side was true, or why that isn't known."""
    try:
        with tempfile.TemporaryDirectory() as folder:
            watch(command, result, folder)
    except ToolError as trouble:
        cli.note(trouble)
