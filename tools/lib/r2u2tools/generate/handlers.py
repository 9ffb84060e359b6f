"""Functions of the user that are called for verdicts."""

from __future__ import annotations

from typing import Sequence

from r2u2tools.common.cli import Trouble
from r2u2tools.generate.program import Output, Program

FORMULA, CONTRACT = ("false", "true"), ("inactive", "invalid", "verified")
Handlers = dict[int, tuple[str, ...]]


def words_of(it: Output) -> tuple[str, ...]:
    return CONTRACT if it.is_contract else FORMULA


def number_of(program: Program, name: str) -> int:
    names = [it.name for it in program.outputs]
    if name not in names:
        near = ", ".join(names[:8]) + (", .." if len(names) > 8 else "")
        raise Trouble(f"--on {name}: no such output: write one of {near or 'none: the program has no outputs'}", 1)
    if names.count(name) > 1:
        raise Trouble(f"--on {name}: {names.count(name)} outputs have this name: give each another one", 1)
    return names.index(name)


def chosen(program: Program, asked: Sequence[str]) -> Handlers:
    """The outputs and words that options name."""
    found: Handlers = {}
    for text in asked:
        name, sign, words = text.partition("=")
        number = number_of(program, name)
        known = words_of(program.outputs[number])
        picked = words.split(",") if sign else []
        for word in picked or [""]:
            if word not in known:
                raise Trouble(f"--on {text}: '{word}' is no word of {name}: write --on {name}={','.join(known)} or some of these", 1)
        found[number] = tuple(word for word in known if word in picked or word in found.get(number, ()))
    return found


def check_names(program: Program, found: Handlers) -> None:
    """Refuses handlers that a linker may take for one."""
    seen: dict[str, str] = {}
    for number in found:
        name = program.outputs[number].name
        other = seen.setdefault(name.lower(), name)
        if other != name:
            raise Trouble(f"outputs {other} and {name} differ by case alone, which some linkers don't tell apart: rename one", 1)
        if [it.name for it in program.outputs].count(name) > 1:
            raise Trouble(f"several outputs have the name {name}: give each another one, or choose others by --on", 1)
    if not found:
        raise Trouble("--handlers: the program has no outputs", 1)


def handlers_of(program: Program, name: str, asked: Sequence[str]) -> Handlers:
    """The words for which each output has a handler: by default those at which it isn't met."""
    if asked:
        found = chosen(program, asked)
    else:
        found = {k: ("invalid",) if it.is_contract else ("false",) for k, it in enumerate(program.outputs)}
    check_names(program, found)
    return dict(sorted(found.items()))
