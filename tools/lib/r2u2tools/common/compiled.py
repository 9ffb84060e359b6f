"""The text of a specification or a compiled program, with the names and the spelling that the author gave."""

from __future__ import annotations

import re
from dataclasses import dataclass
from itertools import chain, islice
from pathlib import Path
from typing import Iterator, Optional, Union

from r2u2tools.common.expressions import TRUTHS, Expression, bound_names, plain, tree_of
from r2u2tools.common import programs
from r2u2tools.common.program_file import Program, read_program
from r2u2tools.common.programs import ran
from r2u2tools.common.program_text import Bare, Count, ProgramText, Requirement, program_text
from r2u2tools.common.source import Item, Token
from r2u2tools.common.specs import MAGIC, Spec, read_spec
from r2u2tools.common.cli import ToolError, opened

REFUSED = re.compile(r"c2po: line (\d+): (.*)")
QUANTIFIERS = ("foreach", "forsome", "forexactly", "foratleast", "foratmost")
COUNTING = QUANTIFIERS[2:]
MOST_NAMES, MOST_QUOTED, MOST_TOKENS = 256, 400, 20_000
FilePath = Union[str, Path]


@dataclass
class Compiled:
    """A program of version 2 in a file, its definitions, and what the file that was given stores."""

    path: Path
    program: Program
    shown: ProgramText
    given: Spec
    old: bool = False

    def flown(self) -> bytes:
        """The bytes of the program that is run: those that were given, or that were compiled."""
        return self.given.raw or self.path.read_bytes()


def text_of(path: FilePath) -> ProgramText:
    return program_text(read_program(str(path), Path(path).read_bytes()))


def make(spec: FilePath, out: FilePath, *words: str) -> None:
    """Compiles a specification; what c2po says of it is printed as it is."""
    status, _, text = ran([programs.program("c2po"), *words, "-o", str(out), str(spec)])
    if status:
        raise ToolError(text.removeprefix("c2po: ") if text else f"c2po ended with status {status}")


def compiled(path: FilePath, folder: FilePath) -> Compiled:
    """The program of a file, which may be a specification or a program of either version."""
    out = Path(folder, "whole.obs")
    with opened(path) as file:
        is_program = file.read(len(MAGIC)) == MAGIC
    try:
        make(path, out, *["--upgrade"] * is_program)
    except ToolError as trouble:
        raise ToolError(f"{path}: {trouble}") from None
    given = read_spec(path)
    program = read_program(str(path), out.read_bytes())
    made = Compiled(out, program, program_text(program), given, is_program and given.raw[4:6] == b"\x01\x00")
    if not is_program:
        for requirement, output in zip(made.shown.outputs, given.outputs):
            requirement.texts.update(zip(requirement.operands(), texts_of(given.text, output.body)))
        name(made.shown, given, folder)
    return made


def sides_of(body: list[Token]) -> list[list[Token]]:
    """The tokens of a formula, or of the two of a contract."""
    cut = [k for k, token in enumerate(body) if token.text == "=>"]
    return [body[: cut[0]], body[cut[0] + 1 :]] if cut else [body]


def texts_of(text: str, body: list[Token]) -> list[str]:
    """A formula, or the two of a contract, as the specification writes them, without comments and line ends."""
    return [plain(text, side) for side in sides_of(body)]


def definitions(given: Spec) -> list[str]:
    """The names that a specification defines, but those of sets and structs."""
    return [item.name for item in given.items if item.section == "DEFINE" and item.name and is_formula(item.body)]


def is_formula(body: list[Token]) -> bool:
    """Whether the body of a definition isn't a set or a struct."""
    is_build = len(body) > 1 and body[1].text == "(" and body[0].text.isidentifier() and body[0].text not in QUANTIFIERS
    return bool(body) and body[0].text != "{" and not is_build


def with_outputs(given: Spec, asked: dict[str, str], folder: FilePath) -> Optional[tuple[ProgramText, list[str]]]:
    """The program of a specification with further formulas as its only outputs, each in its section.

    A formula that isn't one by itself is left out, as c2po says: as an expression of numbers. A formula that looks back
    and was asked for in FTSPEC is tried in PTSPEC.
    """
    kept = [f"{item.section} {given.text[item.start : item.end]};" for item in given.items]
    head = "\n".join(line for line, item in zip(kept, given.items) if item.section not in ("FTSPEC", "PTSPEC"))
    left, first, turned = dict(asked), head.count("\n") + 2, set()
    spec, out = Path(folder, "named.c2po"), Path(folder, "named.obs")
    while left:
        lines = "\n".join(f"{section} {formula};" for formula, section in left.items())
        spec.write_text(f"{head}\n{lines}\n", encoding="latin-1")
        status, _, refusal = ran([programs.program("c2po"), "-o", str(out), str(spec)])
        if not status:
            return text_of(out), list(left)
        match = REFUSED.fullmatch(refusal)
        if not match or not 0 <= int(match[1]) - first < len(left):
            return None
        formula = list(left)[int(match[1]) - first]
        if match[2] == "expansion too large":
            left = dict(list(left.items())[: int(match[1]) - first])
        elif match[2] == "mixed tense" and formula not in turned:
            turned.add(formula)
            left[formula] = "PTSPEC" if left[formula] == "FTSPEC" else "FTSPEC"
        else:
            del left[formula]
    return None


def equal_parts(text: ProgramText, other: ProgramText) -> Iterator[tuple[int, str, bool]]:
    """Of each output of another program, by number, the parts that it equals here, and whether it denies them."""
    equal = text.equals_of(other)
    for number, output in enumerate(other.outputs):
        bare, denied = other.bare(output.left)
        for ref in equal.get(bare, [bare] if bare in text.signals else []):
            yield number, ref, denied


def name(text: ProgramText, given: Spec, folder: FilePath) -> None:
    """Gives the parts of a program the names that its specification defines."""
    asked = {it: "FTSPEC" for it in definitions(given)[:MOST_NAMES]}
    if found := with_outputs(given, asked, folder):
        other, names = found
        for number, ref, denied in equal_parts(text, other):
            text.called.setdefault((ref, denied), names[number])


def quote(made: Compiled, requirement: Requirement, folder: FilePath) -> None:
    """Gives the parts of an output the spelling of its specification."""
    if made.given.is_program():
        return
    output = made.given.outputs[made.shown.outputs.index(requirement)]
    counts = dict(written_counts(made.given, output.body))
    texts = [*written_formulas(made.given, output.body), *counts, *(it for _, _, members in counts.values() for it in members)]
    if found := with_outputs(made.given, dict.fromkeys(texts, output.section), folder):
        other, formulas = found
        parts: dict[str, list[Bare]] = {}
        for number, ref, denied in equal_parts(made.shown, other):
            parts.setdefault(formulas[number], []).append((ref, denied))
            if (ref, denied) not in made.shown.called and ref not in made.shown.signals:
                made.shown.quoted.setdefault((ref, denied), formulas[number])
        for text, (word, least, members) in counts.items():
            if all(it in parts for it in members):
                made.shown.counts.update(dict.fromkeys(parts.get(text, ()), Count(word, least, [parts[it][0] for it in members])))


def written_formulas(given: Spec, body: list[Token]) -> list[str]:
    """The formulas that a requirement consists of, and those of the definitions that it reads, as they are written."""
    by_name = {item.name: item for item in given.items if item.section == "DEFINE"}
    left, read_all, seen, found = sides_of(body), list[list[Token]](), set(), list[str]()
    size = 0
    while left and len(found) < MOST_QUOTED and size < MOST_TOKENS:
        read = left.pop(0)
        read_all.append(read)
        for first, last in formulas_in(read):
            found.append(plain(given.text, read[first:last]))
            size += last - first
        for item in names_in(read, by_name):
            if item.name not in seen:
                seen.add(item.name)
                left.append(item.body)
    fields = {item.name: fields_of(item.body) for item in given.items if item.section == "STRUCT" and item.name}
    inner = (picked(formula, fields) for read in read_all for formula in inner_formulas(given.text, read, by_name))
    return list(dict.fromkeys(chain(found, islice(inner, MOST_QUOTED))))[:MOST_QUOTED]


def written_counts(given: Spec, body: list[Token]) -> Iterator[tuple[str, tuple[str, int, list[str]]]]:
    """The quantifiers that count in a requirement and in the definitions that it reads, by their texts: the word, the number
    and the formulas of the members. One within another quantifier has none, as its text is that of no part."""
    by_name = {item.name: item for item in given.items if item.section == "DEFINE"}
    left, seen = sides_of(body), set[Optional[str]]()
    while left:
        read = left.pop()
        for it in tree.each() if (tree := tree_of(read)) else ():
            if it.op in COUNTING:
                head, inner = read[slice(*it.sign)], read[it.parts[0].first : it.parts[0].last]
                pieces = arguments(by_name[head[4].text].body if head[4].text in by_name else head[4:])
                members = [with_members(given.text, inner, {head[2].text: member(given.text, piece, {})}) for piece in pieces]
                if members and head[-2].text.isdigit():
                    yield plain(given.text, read[it.first : it.last]), (it.op, int(head[-2].text), members)
        fresh = [item for item in names_in(read, by_name) if item.name not in seen]
        seen.update(item.name for item in fresh)
        left += [item.body for item in fresh]


def fields_of(body: list[Token]) -> list[str]:
    """The names of a struct's fields, in order."""
    names = list[str]()
    for before, token, after in zip(body, body[1:], body[2:]):
        if before.text in ("{", ";", ",") and after.text in (":", ","):
            names.append(token.text)
    return names


def picked(formula: str, fields: dict[str, list[str]]) -> str:
    """A formula in which a field that is picked of a struct made in place is what the struct is made with."""
    for found in reversed(list(re.finditer(r"\b([A-Za-z_]\w*)\(", formula))):
        names, pieces, end = fields.get(found[1], []), [""], found.end()
        depth = 1
        while depth and end < len(formula):
            letter, end = formula[end], end + 1
            depth += (letter in "({") - (letter in ")}")
            if letter == "," and depth == 1:
                pieces.append("")
            elif depth:
                pieces[-1] += letter
        pick = re.compile(r"\s*\.\s*([A-Za-z_]\w*)").match(formula, end)
        if pick and pick[1] in names and len(names) == len(pieces):
            piece = pieces[names.index(pick[1])].strip()
            piece = piece if re.fullmatch(r"\w+(\.\w+)*|-?\d+", piece) else f"({piece})"
            formula = formula[: found.start()] + piece + formula[pick.end() :]
    return formula


def inner_formulas(text: str, read: list[Token], by_name: dict[Optional[str], Item]) -> Iterator[str]:
    """The formulas within sets, structs and quantifiers; those of a quantifier with each member in the place of its name."""
    tree = tree_of(read)
    left: list[tuple[list[Token], Expression, dict[str, str], bool]] = [(read, tree, {}, False)] if tree else []
    while left:
        read, it, members, inside = left.pop()
        mine = read[it.first : it.last] if members or inside or not it.parts else []
        if it.op in TRUTHS and (inside or any(token.text in members for token in mine)):
            yield with_members(text, mine, members)
        pieces = [] if it.parts else arguments(mine)
        if it.op in QUANTIFIERS:
            head = read[it.sign[0] + 4 : it.sign[1]]
            pieces, known = arguments(head), members
            if not pieces and head[0].text in by_name:
                pieces, known = arguments(by_name[head[0].text].body), {}
            name = read[it.sign[0] + 2].text
            left += [(read, it.parts[0], {**members, name: member(text, piece, known)}, inside) for piece in pieces]
        else:
            left += [(read, part, members, inside) for part in it.parts]
        left += [(piece, tree, members, True) for piece in pieces if (tree := tree_of(piece))]


def arguments(read: list[Token]) -> list[list[Token]]:
    """What the commas part in the brackets with which a set or a struct begins; none where it begins otherwise."""
    found, depth = list[list[Token]](), 0
    for token in read if [it.text for it in read[:1]] == ["{"] or [it.text for it in read[1:2]] == ["("] else []:
        depth -= token.text in (")", "}", "]")
        if token.text in ("(", "{") and depth == 0 or token.text == "," and depth == 1:
            found.append([])
        elif found and depth:
            found[-1].append(token)
        elif found:
            break
        depth += token.text in ("(", "{", "[")
    return found


def member(text: str, read: list[Token], members: dict[str, str]) -> str:
    """A member of a set as it can take the place of a name."""
    tree, written = tree_of(read), with_members(text, read, members)
    is_number = tree and tree.op == "-" and len(tree.parts) == 1 and not tree.parts[0].parts
    return written if is_number or tree and tree.op in ("", "(") else f"({written})"


def with_members(text: str, read: list[Token], members: dict[str, str]) -> str:
    """Some tokens in one line, without comments, with members in the places of their names."""
    found, before = "", ""
    for k, token in enumerate(read):
        word = members.get(token.text, token.text) if before != "." else token.text
        found += " " * (k > 0 and read[k - 1].end < token.start) + (f"({word})" if before == "-" and word[0] == "-" else word)
        before = token.text
    return found


def names_in(read: list[Token], by_name: dict[Optional[str], Item]) -> list[Item]:
    return [by_name[token.text] for token in read if token.text in by_name]


def formulas_in(read: list[Token]) -> Iterator[tuple[int, int]]:
    """The tokens of each formula within some, but of those that speak of a member of a quantifier."""
    tree = tree_of(read)
    left: list[tuple[Expression, set[str]]] = [(tree, set())] if tree else []
    while left:
        it, bound = left.pop()
        if it.op in TRUTHS and not bound.intersection(token.text for token in read[it.first : it.last]):
            yield it.first, it.last
        within = bound | bound_names(it, read)
        left += [(part, within) for part in it.parts]
