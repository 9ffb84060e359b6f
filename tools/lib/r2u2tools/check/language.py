"""What an editor asks of a specification: the name under the pointer, where it is declared, and what may be typed."""

import json
import subprocess
import tempfile
from dataclasses import dataclass
from pathlib import Path
from typing import Any, Dict, Iterator, List, Optional, Tuple

from r2u2tools.check.faults import Report, ask, spread
from r2u2tools.common.source import RESERVED, Item, Source, Token
from r2u2tools.common.cli import ToolError
from r2u2tools.common.programs import ran, tool

SECONDS = 5
# What keywords and operators mean, each in a line, and what is typed for those with arguments.
MEANINGS = {
    "STRUCT": "a section of types with named parts",
    "INPUT": "a section of signals: what the rows hold",
    "DEFINE": "a section of short names for expressions",
    "FTSPEC": "a section of requirements about the row and rows to come",
    "PTSPEC": "a section of requirements about the row and rows that were",
    "bool": "a truth: 1 or 0 in a trace",
    "int": "an integer of 32 bits in a trace, computed in 64",
    "set": "a type of one or more values of one type, as `set<int>`",
    "true": "holds in each row",
    "false": "holds in no row",
    "F": "`F[a,b] p`: within a to b rows p holds, at least once",
    "G": "`G[a,b] p`: from a to b rows on, p holds in every row",
    "U": "`p U[a,b] q`: within a to b rows q holds, and up to the row before it p holds",
    "R": "`p R[a,b] q`: from a to b rows on q holds, until p has released it",
    "O": "`O[a,b] p`: a to b rows ago p held, at least once",
    "H": "`H[a,b] p`: from a to b rows ago, p held in every row that there was",
    "S": "`p S[a,b] q`: a to b rows ago q held, and p has held since then",
    "foreach": "`foreach(x: s)(p)`: p holds for all members of s",
    "forsome": "`forsome(x: s)(p)`: p holds for one member or more",
    "forexactly": "`forexactly(x: s, n)(p)`: p holds for n members, no more and no fewer",
    "foratleast": "`foratleast(x: s, n)(p)`: p holds for n members or more",
    "foratmost": "`foratmost(x: s, n)(p)`: p holds for n members or fewer",
    "!": "`!p`: p doesn't hold",
    "&&": "`p && q`: both hold",
    "||": "`p || q`: p holds, or q does, or both",
    "->": "`p -> q`: where p holds, q does",
    "<->": "`p <-> q`: p holds exactly where q does",
    "=>": "`A => B`: a contract: inactive where A doesn't hold, else verified or invalid by B",
    "==": "equal integers; two truths are compared with `<->`",
}
SNIPPETS = {word: f"{word}[${{1:0}},${{2:3}}] " for word in "FGURSOH"}
SNIPPETS |= {word: f"{word}(${{1:x}}: ${{2:set}})($3)" for word in ("foreach", "forsome")}
SNIPPETS |= {word: f"{word}(${{1:x}}: ${{2:set}}, ${{3:1}})($4)" for word in ("forexactly", "foratleast", "foratmost")}
# The numbers that the protocol gives to kinds of completion.
FIELD, VARIABLE, KEYWORD, STRUCT, CONSTANT = 5, 6, 14, 22, 21


@dataclass
class Known:
    """What is known of a name: its kind, how it is written, and what it costs."""

    kind: str
    text: str
    cost: str = ""

    def markdown(self) -> str:
        return f"```c2po\n{self.text}\n```\n{self.kind}" + (f"\n\n{self.cost}" if self.cost else "")


class Document:
    """A specification that an editor has open, with what was found in it once it is checked."""

    def __init__(self, source: Source, report: Optional[Report] = None):
        self.source, self.report = report.source if report else source, report
        self.costs: Dict[str, str] = {}

    def hover(self, place: int) -> Optional[Tuple[Token, str]]:
        """The token at a place, and what is known of it, as Markdown."""
        token = self.source.at(place)
        if token is None:
            return None
        if token.text in MEANINGS:
            return token, MEANINGS[token.text]
        known = self.known(token) if token.is_name() else None
        return (token, known.markdown()) if known else None

    def known(self, token: Token) -> Optional[Known]:
        item = self.source.item_of(token)
        if item and token in item.variables():
            return Known("the member of a quantifier", token.text)
        for struct in self.source.items:
            for name, kind in struct.fields():
                if name.text == token.text and (name == token or self.follows_point(token)):
                    whole = struct.names()[0].text if struct.names() else "a struct"
                    return Known(f"a part of {whole}", f"{name.text}: {kind}")
        owner = self.owner(token)
        if owner is None:
            return None
        if owner.section == "INPUT":
            column = self.signals().index(token.text)
            return Known(f"a signal, column {column} without a header", f"{token.text}: {owner.tokens[-2].text}")
        text = self.text_of(owner)
        if owner.section == "STRUCT":
            return Known("a struct", text)
        if owner.is_output():
            return Known("a contract" if "=>" in [it.text for it in owner.tokens] else "a requirement", text, self.cost(token.text))
        return Known(*self.defined(token.text, owner, text))

    def text_of(self, item: Item) -> str:
        """An item as it is written, in one line."""
        return " ".join(self.source.text[item.tokens[0].start : item.tokens[-1].end].split())

    def follows_point(self, token: Token) -> bool:
        place = self.source.tokens.index(token)
        return place > 0 and self.source.tokens[place - 1].text == "."

    def owner(self, token: Token) -> Optional[Item]:
        """The item that declares a name."""
        return next((it for it in self.source.items if token.text in [name.text for name in it.names()]), None)

    def signals(self) -> List[str]:
        return [name.text for item in self.source.items if item.section == "INPUT" for name in item.names()]

    def defined(self, name: str, item: Item, text: str) -> Tuple[str, str, str]:
        """The kind of a definition, as c2po takes it, and its cost where it is a formula."""
        if self.report is None:
            return "a definition", text, ""
        refusal, past = self.asked(name, "FTSPEC"), False
        if refusal == "mixed tense":
            refusal, past = self.asked(name, "PTSPEC"), True
        if not refusal:
            return "bool, a definition", text, self.cost(name, "PTSPEC" if past else "FTSPEC")
        if refusal == "wrong kind" and not self.asked(f"{name} == 0", "FTSPEC"):
            return "int, a definition", text, ""
        return ("a set" if item.body and item.body[0].text == "{" else "a definition"), text, ""

    def with_output(self, section: str, formula: str) -> str:
        label = "hovered"
        while label in self.source.text:
            label += "_"
        self.label = label
        return f"{self.sound()}\n{section} {label}: {formula};\n"

    def sound(self) -> str:
        """The items that c2po takes, as a text."""
        return spread(self.report.sound)[0] if self.report else ""

    def asked(self, formula: str, section: str) -> str:
        """What c2po finds wrong with one more output; nothing where it takes it."""
        return ask(self.with_output(section, formula)).placed()[1]

    def cost(self, name: str, section: str = "") -> str:
        """The delay of an output, or of a definition as one, and what it takes, as r2u2-budget has it."""
        if self.report is None:
            return ""
        if name not in self.costs:
            text = self.with_output(section, name) if section else self.sound()
            self.costs[name] = cost_of(text, self.label if section else name)
        return self.costs[name]

    def definitions(self, place: int) -> List[Token]:
        """Where the name at a place is declared; a part may be one of several structs."""
        token = self.source.at(place)
        item = self.source.item_of(token) if token else None
        if token is None or item is None or not token.is_name():
            return []
        if self.follows_point(token) or token in [name for name, _ in item.fields()]:
            return [name for owner in self.source.items for name, _ in owner.fields() if name.text == token.text]
        own = [it for it in item.variables() if it.text == token.text and it.start <= token.start]
        return own[-1:] or [it for it in self.source.declared().values() if it.text == token.text]

    def references(self, place: int) -> List[Token]:
        """All places of the name at a place, with its declaration."""
        token, wanted = self.source.at(place), self.definitions(place)
        alike = [it for it in self.source.tokens if token and it.text == token.text]
        return [it for it in alike if wanted and self.definitions(it.start) == wanted]

    def completion(self, place: int) -> Iterator[Dict[str, Any]]:
        """What may be typed at a place: parts after a point, otherwise keywords and the names before it."""
        before = [token for token in self.source.tokens if token.end <= place]
        typed = before[-1] if before and before[-1].kind == "word" and before[-1].end == place else None
        last = before[-2 if typed else -1] if len(before) > (typed is not None) else None
        if last is not None and last.text == ".":
            for item in self.source.items:
                for name, kind in item.fields():
                    yield {"label": name.text, "kind": FIELD, "detail": kind}
            return
        here = next((item for item in self.source.items if item.tokens[-1].end >= place), None)
        for name in here.variables() if here else ():
            yield {"label": name.text, "kind": VARIABLE, "detail": "member"}
        for item in self.source.items:
            if item is here:
                break
            if not item.is_output():
                for name in item.names():
                    yield {"label": name.text, "kind": STRUCT if item.section == "STRUCT" else VARIABLE, "detail": detail(item)}
        for word in RESERVED:
            yield {"label": word, "kind": KEYWORD, "detail": MEANINGS.get(word, "")} | snippet(word)


def snippet(word: str) -> Dict[str, Any]:
    return {"insertText": SNIPPETS[word], "insertTextFormat": 2} if word in SNIPPETS else {}


def detail(item: Item) -> str:
    """What a completion says of a name."""
    if item.section == "INPUT":
        return item.tokens[-2].text if len(item.tokens) > 1 else ""
    return "struct" if item.section == "STRUCT" else " ".join(token.text for token in item.body)[:60]


def cost_of(text: str, name: str) -> str:
    """The line on an output of a text; nothing where r2u2-budget can't say."""
    with tempfile.TemporaryDirectory(prefix="check-") as folder:
        spec = Path(folder, "hover.c2po")
        spec.write_text(text, encoding="utf-8", errors="surrogateescape")
        try:
            _, out, _ = ran([*tool("budget"), "--json", "--top", "0", str(spec)], timeout=SECONDS)
            outputs = json.loads(out)["outputs"] if out else []
        except (ToolError, ValueError, KeyError, subprocess.TimeoutExpired):
            return ""
    for it in outputs:
        if it["name"] == name:
            return f"delay {it['delay']} rows, {it['slots']} slots, {it['boxes']} boxes, at most {it['steps']} steps a row"
    return ""
