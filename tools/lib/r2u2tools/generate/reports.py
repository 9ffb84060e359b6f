"""How the outputs of a row are kept until they are asked for, and how they are told to handlers at once."""

from __future__ import annotations

from dataclasses import dataclass
from typing import Optional

from r2u2tools.generate.future import ONES, Future
from r2u2tools.generate.lines import Body
from r2u2tools.generate.nodes import WORD, Nodes, Ref
from r2u2tools.generate.past import Past
from r2u2tools.generate.program import Output, Program


@dataclass(frozen=True)
class Found:
    """What a row decides of an output: how many times, how many are left undecided, and their bits, the last one lowest.

    Of a contract `assumed` are the bits of the assumption, `bits` those of the guarantee. The bits of a single run are all
    equal; those in rings are read when they are asked for.
    """

    count: str
    lag: Optional[str]
    bits: str
    assumed: str = ""
    is_run: bool = False
    is_ring: bool = False


class Reports:
    """The outputs of a program."""

    def __init__(self, program: Program, nodes: Nodes, future: Future, past: Past, body: Body) -> None:
        self.program, self.nodes, self.future, self.past, self.body = program, nodes, future, past, body
        self.has_contracts = any(it.is_contract for it in program.outputs)
        self.width = 64 if any(self.bits_of(it) == 64 for it in program.outputs) else 32
        self.rings = [k for k, it in enumerate(program.outputs) if self.is_ring(it)]

    def refs(self, it: Output) -> tuple[Ref, ...]:
        left, right = self.nodes.sides(it)
        return (left, right) if it.is_contract else (left,)

    def bits_of(self, it: Output) -> int:
        if it.is_past or all(self.nodes.form(ref) in ("now", "count") for ref in self.refs(it)[:1]) and not it.is_contract:
            return 32
        if not it.is_contract:
            return 64 if self.is_ring(it) else self.nodes.of(self.refs(it)[0]).width()
        return 64 if self.nodes.worst(*self.refs(it)) > 31 else 32

    def is_ring(self, it: Output) -> bool:
        if it.is_past or all(self.nodes.is_now(ref) for ref in self.refs(it)):
            return False
        if it.is_contract:
            return self.nodes.worst(*self.refs(it)) > WORD
        return self.nodes.form(self.refs(it)[0]) == "ring"

    def fill(self, value: str) -> str:
        return {"true": ONES[self.width], "false": "0"}.get(value, f"{value} ? {ONES[self.width]} : 0")

    def found(self, k: int) -> Found:
        """Writes what an output needs beside its formulas."""
        it = self.program.outputs[k]
        if it.is_past:
            sides = [self.past.value(it.left)] + ([self.past.value(it.right)] if it.is_contract else [])
            return self.at_once(sides)
        refs = self.refs(it)
        if all(self.nodes.is_now(ref) for ref in refs):
            return self.at_once([self.future.value(ref) for ref in refs])
        return self.contract(k, *refs) if it.is_contract else self.formula(refs[0])

    def at_once(self, sides: list[str]) -> Found:
        return Found("1", None, self.fill(sides[-1]), self.fill(sides[0]) if len(sides) == 2 else "", True)

    def formula(self, ref: Ref) -> Found:
        node, f = self.nodes.of(ref), f"f{ref.node}"
        if node.form == "count":
            sides = ("0", ONES[self.width]) if ref.is_denied else (ONES[self.width], "0")
            return Found(f"{f}_new", f"{f}_lag", f"{f}_value ? {sides[0]} : {sides[1]}", is_run=True)
        if node.form == "ring":
            return Found(f"{f}_new", f"{f}_lag", "", is_ring=True)
        return Found(f"{f}_new", f"{f}_lag", self.shifted(self.future.word(ref, node.width()), node.width(), f"{f}_lag"))

    def shifted(self, word: str, width: int, lag: str) -> str:
        text = f"({word}) >> {lag}" if not word.isidentifier() else f"{word} >> {lag}"
        return f"(uint{self.width}_t)({text})" if width != self.width else text

    def contract(self, k: int, left: Ref, right: Ref) -> Found:
        """Writes how far the status of a contract is known: the assumption has to be, and where it holds the guarantee too."""
        lag, before = f"f_o{k}_lag".replace("f_o", f"f{len(self.program.ft)}_o"), f"it->open[{k}].lag"
        new = lag.replace("_lag", "_new")
        self.body.remark(f"output {k}: {self.future.text(left)} => {self.future.text(right)}")
        worst = self.nodes.worst(left, right)
        if worst > WORD:
            words = f"{self.future.queue(left)}, {self.future.queue(right)}, now - 1 - {before}"
            self.body.call("contract_row", f"const uint32_t {lag} = now - contract_row({words});")
            self.body.add(f"const uint32_t {new} = {before} + 1 - {lag};")
            return Found(new, lag, "", " ", is_ring=True)
        width = 32 if worst < 32 else 64
        runs = self.nodes.takes_runs(left, right)
        one, other = (self.future.word(ref, width, runs) for ref in (left, right))
        right_known = self.future.known(right, width)
        opened = f"{one} & ~{right_known}"
        if not self.nodes.is_now(left):
            opened = f"~({self.future.known(left, width)} & (~({one}) | {right_known}))"
        self.body.call(f"length{width}", f"const uint32_t {lag} = length{width}({opened});")
        self.body.add(f"const uint32_t {new} = {before} + 1 - {lag};")
        return Found(new, lag, self.shifted(other, width, lag), self.shifted(one, width, lag))

    def keep(self, k: int, found: Found) -> None:
        """Writes how a row's verdicts are kept for the calls that ask for them."""
        it = f"it->open[{k}]"
        if found.lag:
            self.body.add(f"{it}.lag = {found.lag};")
        self.body.add(f"{it}.left = {found.count};")
        if found.is_ring:
            self.body.add(f"if ({found.count} != 0) fetch(it, {k});")
            return
        self.body.add(f"{it}.bits = {found.bits};")
        if found.assumed:
            self.body.add(f"{it}.assumed = {found.assumed};")

    def tell(self, k: int, name: str, words: tuple[str, ...]) -> None:
        """Writes the calls of an output's handlers, which have some words; of none only how far the output is decided."""
        found, add = self.found(k), self.body.add
        if found.lag and (found.assumed or found.is_ring and words):
            add(f"it->open[{k}].lag = {found.lag};")
        if not words:
            return
        if found.lag is None:
            add(*self.calls(k, name, words, self.truths(k, found), "it->rows - 1"))
        elif found.is_ring:
            self.tell_ring(k, name, words, found)
        else:
            bits = [found.bits, found.assumed] if found.assumed else [found.bits]
            kind = f"uint{self.width}_t"
            add(f"for (uint32_t left = {found.count}; left != 0; left--) {{")
            for text, side in zip(bits, ("bits", "assumed")):
                add(f"    const {kind} {side} = {text};")
            shift = "" if found.is_run else " >> (left - 1)"
            truths = [f"({side}{shift} & 1) != 0" for _, side in zip(bits, ("bits", "assumed"))]
            add(*(f"    {line}" for line in self.calls(k, name, words, truths, f"it->rows - ({found.lag} + left)")), "}")

    def truths(self, k: int, found: Found) -> list[str]:
        """The guarantee and the assumption of an output that is known at once, or its formula."""
        return [text.partition(" ?")[0] if "?" in text else "true" if text != "0" else "false" for text in (found.bits, found.assumed) if text]

    def tell_ring(self, k: int, name: str, words: tuple[str, ...], found: Found) -> None:
        """The same for verdicts that are in rings, of which up to 64 are fetched at once."""
        it = f"it->open[{k}]"
        truths = [f"({it}.{side} >> bit & 1) != 0" for side in (("bits", "assumed") if found.assumed else ("bits",))]
        self.body.add(
            f"{it}.left = {found.count};",
            f"while ({it}.left != 0) {{",
            f"    if (({it}.left & 63) == 0 || {it}.left == {found.count}) fetch(it, {k});",
            f"    const uint32_t bit = ({it}.left - 1) & 63;",
            *(f"    {line}" for line in self.calls(k, name, words, truths, f"it->rows - ({found.lag} + {it}.left)")),
            f"    {it}.left -= 1;",
            "}",
        )

    def calls(self, k: int, name: str, words: tuple[str, ...], truths: list[str], time: str) -> list[str]:
        """The calls of handlers for a time, by the truth of a formula, or of a guarantee and its assumption."""
        first = truths[0] if " " not in truths[0] else f"({truths[0]})"
        tests = {"true": first, "false": f"!{first}", "inactive": "", "invalid": f"!{first}", "verified": first}
        handler = f"{name}_on_{self.program.outputs[k].name}"
        if len(truths) == 2:
            assumed = truths[1] if " " not in truths[1] else f"({truths[1]})"
            tests |= {"inactive": f"!{assumed}"} | {word: f"{assumed} && {tests[word]}" for word in ("invalid", "verified")}
        return [f"if ({tests[word].replace('!!', '')}) {handler}_{word}({time});" for word in words]

    def fetch(self, name: str) -> list[str]:
        """The function that reads the next verdicts of outputs from rings; up to 64, the last one lowest."""
        lines = [
            "/* Reads the next verdicts of an output from its ring: as many as leave a multiple of 64. */",
            f"static void fetch(struct {name} *it, uint32_t k) {{",
            "    const uint32_t time = (uint32_t)it->rows - it->open[k].lag - it->open[k].left;",
            "    const uint32_t drop = 63 - ((it->open[k].left - 1) & 63);",
            "    switch (k) {",
        ]
        for k in self.rings:
            refs = self.refs(self.program.outputs[k])
            lines.append(f"    case {k}:")
            for member, ref in zip(("assumed", "bits") if len(refs) == 2 else ("bits",), refs):
                lines.append(f"        it->open[{k}].{member} = {self.ring_word(ref)} >> drop;")
            lines.append("        break;")
        return [*lines, "    default:", "        break;", "    }", "}", ""]

    def ring_word(self, ref: Ref) -> str:
        if ref.node < 0:
            return "UINT64_C(0)" if ref.is_denied else "UINT64_MAX"
        node = self.nodes.of(ref)
        self.body.call("ring_read")
        text = f"ring_read({self.future.ring(node)}, {node.ring - 1}, time)"
        return f"~{text}" if ref.is_denied else text
