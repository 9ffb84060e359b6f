"""All faults of a specification, as c2po finds them.

c2po prints the first fault, with its line. So the text is given to it with each
token on a line by itself, which makes the line the token. Then the item at
fault is left out and c2po asked again, until it takes what is left. A name of
an item that was left out is unknown to later ones: those are left out as well,
without a word, as they depend on it.
"""

import difflib
import re
import time
from dataclasses import dataclass, field
from typing import Iterator, List, Optional, Set, Tuple

from r2u2tools.check import grammar, notes
from r2u2tools.check.rewrites import rewritten
from r2u2tools.common.source import QUANTIFIERS, Item, Source, Token, encoded, read
from r2u2tools.common.cli import ToolError
from r2u2tools.common.programs import program, ran

# How many faults are looked for, and how long.
MOST, SECONDS = 100, 10
PLACED = re.compile(r"line (\d+): (.*)", re.S)
SPECIFICATION = 2
MEANT = re.compile(r"did you mean '([^']+)'\?")
# The faults that a line in other words may mend.
REWRITABLE = ("syntax", "bad character", "wrong kind", "unknown name", "bad interval")
# A status of c2po that says something of the text: its faults, and that it is too long or takes too much memory.
OF_THE_TEXT = (SPECIFICATION, 5, 8)
TYPES = {"boolean": "bool", "integer": "int", "float": "int", "double": "int", "real": "int", "uint": "int", "string": "int"}


@dataclass(frozen=True)
class Answer:
    """What c2po says of a text: its exit code, and its message without its name."""

    status: int
    message: str

    def placed(self) -> Tuple[int, str]:
        """The line, 0 where there is none, and what is wrong."""
        found = PLACED.fullmatch(self.message)
        return (int(found[1]), found[2]) if found else (0, self.message)


@dataclass
class Fault:
    """A fault: c2po's words, its place, and what helps. `token` is none at the end of an item, or of the whole text."""

    what: str
    line: int
    column: int
    length: int
    name: str = ""
    hints: List[str] = field(default_factory=list)
    note: Optional[notes.Row] = None
    level: str = "error"

    def text(self) -> str:
        """The message, with the token at fault and a hint."""
        hints = f" ({'; '.join(self.hints)})" if self.hints else ""
        return f"{self.what}{' ' + self.name if self.name else ''}{hints}"


@dataclass
class Report:
    """What was found in a text. `answer` is what c2po says of it as it is."""

    source: Source
    answer: Answer
    faults: List[Fault]
    more: bool = False
    # The items that c2po takes, together.
    sound: List[Item] = field(default_factory=list)
    # The program whose answer it is.
    program: str = "c2po"


def ask(text: str) -> Answer:
    """What c2po says of a text."""
    status, _, message = ran([program("c2po"), "-o", "/dev/null", "-"], encoded(text))
    if status not in (0, *OF_THE_TEXT):
        raise ToolError(message.removeprefix("c2po: ") or f"c2po ended with status {status}")
    return Answer(status, message.removeprefix("c2po: "))


def spread(items: List[Item]) -> Tuple[str, List[Tuple[Item, Token]]]:
    """The text of some items with a token on each line, and whose line is whose."""
    lines: List[str] = []
    owners: List[Tuple[Item, Token]] = []
    section = ""
    for item in items:
        for k, token in enumerate(item.tokens):
            head = f"{item.section} " if k == 0 and item.section != section else ""
            lines.append(head + token.text)
            owners.append((item, token))
        section = item.section if item.closed() else ""
    return "\n".join(lines), owners


def check(text: str) -> Report:
    """All faults of a text in its order; none where c2po takes it."""
    source, answer = read(text), ask(text)
    report = Report(source, answer, [], sound=list(source.items))
    if answer.status:
        found = list(searched(report))
        report.faults = sorted(found[:MOST], key=lambda it: (it.line, it.column))
        lines = source.lines()
        for fault in report.faults:
            fault.note = instead(fault, lines[fault.line - 1].rstrip("\r"))
        report.more |= len(found) > MOST
    return report


def instead(fault: Fault, line: str) -> Optional[notes.Row]:
    """What is said below a fault: the reader's own line as it should be, else the usual row of the page."""
    if meant := MEANT.search(fault.text()):
        return notes.Row("write", line, (line[: fault.column] + meant[1] + line[fault.column + fault.length :]).strip())
    return (rewritten(line) if fault.what in REWRITABLE else None) or fault.note


def searched(report: Report) -> Iterator[Fault]:
    """The faults, one after another; at least what c2po says of the whole text. Only sound items are left in the report."""
    source, live, end = report.source, report.sound, time.monotonic() + SECONDS
    lost: Set[str] = set()
    count = 0
    while live and count <= MOST:
        if count and time.monotonic() > end:
            report.more = True
            break
        text, owners = spread(live)
        said = ask(text)
        line, what = said.placed()
        if not said.status:
            break
        if not 0 < line <= len(owners):
            count += 1
            yield whole(source, live, said)
            break
        item, token = owners[line - 1]
        if what != "unknown name" or token.text not in lost:
            count += 1
            yield fault_of(source, item, token, what)
        lost.update(name.text for name in item.names())
        live[:] = [it for it in live if it is not item]
    if not count:
        line, what = report.answer.placed()
        yield Fault(what, max(line, 1), 0, len(source.lines()[max(line, 1) - 1]))


def whole(source: Source, live: List[Item], said: Answer) -> Fault:
    """A fault without a line: the first output with which it comes is where to look."""
    outputs = [item for item in live if item.is_output()]
    others = [item for item in live if not item.is_output()]
    low, high = 0, len(outputs)
    while low < high:
        middle = (low + high) // 2
        kept = outputs[: middle + 1]
        if ask(spread([item for item in live if item in others or item in kept])[0]).status:
            high = middle
        else:
            low = middle + 1
    note = notes.note(said.message, notes.Place("", (), 0))
    if low < len(outputs):
        token = outputs[low].tokens[0]
        hint = "at this output" if low == 0 else "with this output and those before it"
        return Fault(said.message, token.line, token.column, len(token.text), "", [hint], note)
    return Fault(said.message, 1, 0, len(source.lines()[0]), note=note)


def fault_of(source: Source, item: Item, printed: Token, what: str) -> Fault:
    """A fault with its place, a hint and a note. `printed` is the token whose line c2po printed."""
    if what == "syntax":
        return syntax(item, printed)
    token = aimed(source, item, printed, what)
    name, missing = "", ""
    hints: List[str] = []
    if token.kind == "word" and what in ("unknown name", "unknown field", "name declared twice"):
        name = f"'{token.text}'"
    if what == "bad character":
        name = f"'{token.text}'" if token.text.isprintable() else f"U+{ord(token.text):04X}"
    elif what == "unknown name":
        hints, missing = unknown(source, item, token)
    elif what == "unknown field":
        hints = near(token.text, [it.text for other in source.items for it, _ in other.fields()])
    elif what == "name declared twice":
        hints = [f"first declared in line {line}" for line in earlier(source, item, token)]
    elif what == "bad interval":
        missing = bounds(item, token)
    elif what == "wrong kind":
        missing = "struct" if is_built(source, token.text) else ""
    note = notes.note(what, notes.place_of(item, token, missing))
    length = len(token.text) if token is printed or what in AIMED else length_of(item, token)
    return Fault(what, token.line, token.column, length, name, hints, note)


# Of these the token is known, where c2po prints the line of the whole item; of others the expression is shown.
AIMED = ("unknown name", "name declared twice", "mixed tense", "bad divisor")
FUTURE, PAST = ("F", "G", "U", "R"), ("O", "H", "S")


def aimed(source: Source, item: Item, printed: Token, what: str) -> Token:
    """The token to look at, where c2po prints the line of an item or of a quantifier."""
    if what == "unknown name" and printed in item.names():
        return unknown_type(source, item) or printed
    if what == "unknown name" and item.section == "STRUCT" and printed in [name for name, _ in item.fields()]:
        return unknown_type(source, item) or printed
    if what == "name declared twice" and printed.text in QUANTIFIERS:
        return item.tokens[item.tokens.index(printed) + 2]
    body = item.body
    if printed is not item.tokens[0] or not body or item.section == "INPUT":
        return printed
    if what == "mixed tense":
        other = PAST if item.section == "FTSPEC" else FUTURE
        return next((it for it in body if it.text in other), body[0])
    if what == "bad divisor":
        by_number = [after.text.isdigit() and int(after.text[:20]) != 0 for after in body[1:]]
        return next((it for it, sound in zip(body, by_number) if it.text in ("/", "%") and not sound), body[0])
    return body[0] if what in ("wrong kind", "number range") else printed


def length_of(item: Item, token: Token) -> int:
    """How far the rest of an item's expression goes in the line of a token."""
    last = [it for it in item.body if it.line == token.line][-1:] or [token]
    return last[0].end - token.start


def unknown_type(source: Source, item: Item) -> Optional[Token]:
    """The first type of an item that isn't declared before it."""
    structs = {name.text for it in source.items if it.section == "STRUCT" and it.start < item.start for name in it.names()}
    pairs = list(zip(item.tokens, item.tokens[1:]))[item.section == "STRUCT" and 2 :]
    found = [it for before, it in pairs if before.text in (":", "<") and it.kind == "word" and it.text not in structs]
    return next((it for it in found if it.text not in ("bool", "int", "set")), None)


def syntax(item: Item, token: Token) -> Fault:
    """A fault of the grammar, at the first token that fits nothing where that is found."""
    found = grammar.misfit(item)
    if found is None:
        return Fault("syntax", token.line, token.column, len(token.text))
    note = notes.note("syntax", notes.place_of(item, found.token, found.what))
    what = found.what.rstrip(",")
    if found.token is None:
        last = item.tokens[-1]
        return Fault("syntax", last.line, last.column + len(last.text), 1, "", [f"expected {what} after '{last.text}'"], note)
    hints = [f"expected {what} before '{found.token.text}'"]
    if note and note.rule.startswith("no `;`") and found.before:
        hints.append("is a ; missing?")
    return Fault("syntax", found.token.line, found.token.column, len(found.token.text), "", hints, note)


def near(name: str, known: List[str]) -> List[str]:
    """A hint where a name is close to a known one."""
    same = [it for it in known if it.lower() == name.lower() and it != name]
    close = same or difflib.get_close_matches(name, known, 1, 0.6) or [it for it in known if len(it) > 1 and it.startswith(name)]
    return [f"did you mean '{close[0]}'?"] if close else []


def unknown(source: Source, item: Item, token: Token) -> Tuple[List[str], str]:
    """Hints for a name that isn't declared where it is read, and which row of the page fits."""
    place = item.tokens.index(token)
    before = item.tokens[place - 1].text if place else ""
    if before == ":" and item.section in ("INPUT", "STRUCT") or before == "<" and item.section == "STRUCT":
        structs = [it.names()[0].text for it in source.items if it.section == "STRUCT" and it.names()]
        like = TYPES.get(re.sub(r"\d+(_t)?$", "", token.text.lower()))
        return [f"did you mean '{like}'?"] if like else near(token.text, ["bool", "int", *structs]), "type"
    later = source.declared().get(token.text)
    if later:
        return ["declared by this item itself" if later in item.names() else f"declared later, in line {later.line}"], "later"
    visible = [*(it.text for it in item.variables()), *source.declared(item)]
    hints = near(token.text, visible)
    return hints, "near" if hints else ""


def earlier(source: Source, item: Item, token: Token) -> List[int]:
    """The line of the first declaration of a name."""
    first = source.declared(item).get(token.text)
    own = [it for it in item.names() if it.text == token.text and it.start < token.start]
    return [(first or own[0]).line] if first or own else []


def bounds(item: Item, token: Token) -> str:
    """Which bound an interval or a counting quantifier is past."""
    place = item.tokens.index(token)
    numbers = [int(it.text[:20]) for it in item.tokens[place : place + 6] if it.kind == "number"]
    if token.text.startswith("for"):
        return token.text
    return "end" if any(number > 1 << 20 for number in numbers[:2]) else "order"


def is_built(source: Source, name: str) -> bool:
    """Whether a name is defined as a struct."""
    structs = {it.names()[0].text for it in source.items if it.section == "STRUCT" and it.names()}
    for item in source.items:
        if item.section == "DEFINE" and [it.text for it in item.names()] == [name]:
            return bool(item.body) and item.body[0].text in structs
    return False

