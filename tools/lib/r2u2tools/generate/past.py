"""The instructions of past time in C. Each is known at once; a since is kept in the smallest of four forms."""

from __future__ import annotations

from r2u2tools.generate.lines import Body
from r2u2tools.generate.nodes import words_for
from r2u2tools.generate.program import Instruction, Program


class Past:
    """Writes the instructions of past time into a body: by number, their locals are p3 and so on."""

    def __init__(self, program: Program, body: Body) -> None:
        self.program, self.body = program, body
        self.used = self.below()

    def below(self) -> set[int]:
        left = [k for it in self.program.outputs if it.is_past for k in ([it.left, it.right] if it.is_contract else [it.left])]
        found = set[int]()
        while left:
            k = left.pop()
            if k not in found:
                found.add(k)
                it = self.program.pt[k]
                left += {"not": [it.left], "and": [it.left, it.right], "until": [it.left, it.right]}.get(it.op, [])
        return found

    def value(self, k: int) -> str:
        it = self.program.pt[k]
        if it.op == "true":
            return "true"
        if it.op == "load":
            return f"b{it.left}"
        if it.op == "not":
            return self.denied(it.left)
        return f"p{k}"

    def denied(self, k: int) -> str:
        text = self.value(k)
        if text in ("true", "false"):
            return "false" if text == "true" else "true"
        return text[1:] if text.startswith("!") else f"!{text}"

    def write(self) -> None:
        for k in sorted(self.used):
            it = self.program.pt[k]
            if it.op == "and":
                self.body.remark(f"p{k}: {self.value(it.left)} && {self.value(it.right)}")
                self.body.add(f"const bool p{k} = {self.value(it.left)} & {self.value(it.right)};")
            elif it.op == "until":
                self.body.remark(f"p{k}: {self.value(it.left)} S[{it.low},{it.high}] {self.value(it.right)}")
                self.write_since(k, it)

    def write_since(self, k: int, it: Instruction) -> None:
        if it.high < 32:
            self.write_word(k, it, 32)
        elif it.low < 32:
            self.write_count(k, it, self.entering(k, it, 32))
        elif it.high < 64:
            self.write_word(k, it, 64)
        elif it.low < 64:
            self.write_count(k, it, self.entering(k, it, 64))
        elif 8 * box_count(it) <= 8 * words_for(it.low + 1):
            self.write_boxes(k, it)
        else:
            self.write_count(k, it, self.from_line(k, it))

    def history(self, k: int, it: Instruction, width: int) -> str:
        """Adds a row to the history of the right operand, from which all is dropped where the left one is false."""
        kind, left = f"uint{width}_t", self.value(it.left)
        past = self.body.member(kind, f"p{k}_past")
        kept = past if left == "true" else f"({left} ? {past} : 0)"
        self.body.add(f"const {kind} p{k}_past = {kept} << 1 | ({kind})({self.value(it.right)});", f"{past} = p{k}_past;")
        return f"p{k}_past"

    def write_word(self, k: int, it: Instruction, width: int) -> None:
        past = self.history(k, it, width)
        mask = (1 << it.high + 1) - (1 << it.low)
        self.body.add(f"const bool p{k} = ({past} & UINT{width}_C({mask:#x})) != 0;")

    def entering(self, k: int, it: Instruction, width: int) -> str:
        """Whether the right operand was true `low` rows ago, and the left one since then."""
        if it.low == 0:
            return self.value(it.right)
        return f"({self.history(k, it, width)} >> {it.low} & 1) != 0"

    def from_line(self, k: int, it: Instruction) -> str:
        """The same by a ring of bits, and by the number of rows for which the left operand was true."""
        words, left = words_for(it.low + 1), self.value(it.left)
        line = self.body.member("uint64_t", f"p{k}_line", words)
        self.body.call("ring_add", f"ring_add({line}, {words - 1}, now - 1, {self.value(it.right)});")
        self.body.call("line_bit")
        enters = f"line_bit({line}, {words - 1}, now - {it.low + 1})"
        if left == "true":
            return enters
        run = self.body.member("uint32_t", f"p{k}_run")
        self.body.add(f"if (!({left})) {run} = 0;", f"else if ({run} < {it.low}) {run} += 1;")
        return f"{run} == {it.low} && {enters}"

    def write_count(self, k: int, it: Instruction, enters: str) -> None:
        """Keeps for how many rows it will still hold."""
        rest = self.body.member("uint32_t", f"p{k}_rest")
        left = self.value(it.left)
        drops = [] if left == "true" else [f"else if ({self.denied(it.left)}) p{k}_rest = 0;"]
        self.body.add(
            f"uint32_t p{k}_rest = {rest};",
            f"if ({enters}) p{k}_rest = {it.high - it.low + 1};",
            *drops,
            f"else if (p{k}_rest != 0) p{k}_rest -= 1;",
            f"const bool p{k} = p{k}_rest != 0;",
            f"{rest} = p{k}_rest;",
        )

    def write_boxes(self, k: int, it: Instruction) -> None:
        room = box_count(it)
        kept = self.body.member("struct box", f"p{k}_boxes", room)
        head, count = (self.body.member("uint32_t", f"p{k}_{name}") for name in ("head", "count"))
        words = f"{kept}, {room}, &{head}, &{count}, {self.value(it.left)}, {self.value(it.right)}, now - 1, {it.low}, {it.high}"
        self.body.call("boxes", f"const bool p{k} = boxes({words});")


def box_count(it: Instruction) -> int:
    """The most stretches that a since keeps."""
    return it.high // (it.high - it.low + 2) + 1
