"""The instructions of future time in C."""

from __future__ import annotations

from r2u2tools.generate.lines import Body
from r2u2tools.generate.nodes import CONSTANT, Node, Nodes, Ref

ONES = {32: "UINT32_MAX", 64: "UINT64_MAX"}


class Future:
    """Writes the nodes of a program into a body: by number, the names of its locals are f3, f3_lag and so on."""

    def __init__(self, nodes: Nodes, body: Body) -> None:
        self.nodes, self.body = nodes, body

    def write(self) -> None:
        for node in self.nodes.all.values():
            if node.is_read:
                self.body.remark(self.remark(node))
                getattr(self, f"write_{node.form}")(node)

    def text(self, ref: Ref) -> str:
        name = "true" if ref.node == CONSTANT else f"f{ref.node}"
        return f"!{name}" if ref.is_denied else name

    def remark(self, node: Node) -> str:
        if node.op == "load":
            return f"f{node.number}: b{node.load}"
        sign = "&&" if node.op == "and" else f"U[{node.low},{node.high}]"
        return f"f{node.number}: {self.text(node.left)} {sign} {self.text(node.right)}"

    def value(self, ref: Ref) -> str:
        """The verdict of a formula that is known at once, for the row that is taken."""
        if ref.node == CONSTANT:
            return "false" if ref.is_denied else "true"
        name = f"b{self.nodes.of(ref).load}" if self.nodes.of(ref).op == "load" else f"f{ref.node}"
        return f"!{name}" if ref.is_denied else name

    def write_now(self, node: Node) -> None:
        ref, f = Ref(node.number, False), f"f{node.number}"
        if node.op == "and":
            self.body.add(f"const bool {f} = {self.value(node.left)} & {self.value(node.right)};")
        if node.word:
            word = self.body.member(f"uint{node.word}_t", f"{f}_past")
            self.body.add(f"const uint{node.word}_t {f}_word = {word} << 1 | (uint{node.word}_t){self.plain(ref)};")
            self.body.add(f"{word} = {f}_word;")
        if node.ring:
            ring = self.ring(node)
            self.body.call("ring_add", f"ring_add({ring}, {node.ring - 1}, now - 1, {self.value(ref)});")

    def plain(self, ref: Ref) -> str:
        """A verdict as an operand of a cast."""
        text = self.value(ref)
        return f"({text})" if text.startswith("!") else text

    def ring(self, node: Node) -> str:
        return self.body.member("uint64_t", f"f{node.number}_ring", node.ring)

    def write_count(self, node: Node) -> None:
        f, lag = f"f{node.number}", self.body.member("uint32_t", f"f{node.number}_lag")
        hit, left = self.value(node.right), self.value(node.left)
        decides = hit if left == "true" else f"{hit} || {self.value(node.left.denied())}"
        ready = f"{f}_lag >= {node.low}" if node.low else ""
        test = " && ".join(filter(None, (ready, f"({decides})" if ready and "||" in decides else decides)))
        gain = {0: f"{f}_lag + 1", 1: f"{f}_lag"}.get(node.low, f"{f}_lag - {node.low - 1}")
        self.body.add(
            f"uint32_t {f}_lag = {lag};",
            f"uint32_t {f}_new = 0;",
            f"bool {f}_value = false;",
            f"if ({test}) {{",
            f"    {f}_new = {gain};",
            f"    {f}_value = {'true' if left == 'true' else hit};",
            f"    {f}_lag = {node.low};",
            f"    {lag} = {node.low};",
            f"}} else if ({f}_lag == {node.high}) {{",
            f"    {f}_new = 1;",
            "} else {",
            f"    {f}_lag += 1;",
            f"    {lag} = {f}_lag;",
            "}",
        )
        self.keep_run(node)

    def keep_run(self, node: Node) -> None:
        """Puts the run that an until over operands without delay decided into its history."""
        f = f"f{node.number}"
        if node.word:
            past = self.body.member(f"uint{node.word}_t", f"{f}_past")
            self.body.call(f"join{node.word}", f"if ({f}_new != 0) {past} = join{node.word}({past}, {f}_new, {f}_value);")
            self.body.add(f"const uint{node.word}_t {f}_word = {past} << {f}_lag;")
        if node.ring:
            first = f"now - {f}_lag - {f}_new"
            self.body.call("ring_fill", f"ring_fill({self.ring(node)}, {node.ring - 1}, {first}, {f}_new, {f}_value);")

    def word(self, ref: Ref, width: int, runs: bool = False) -> str:
        """The verdicts of a formula as the bits of a word, the one of the row that is taken lowest."""
        if ref.node == CONSTANT:
            return "0" if ref.is_denied else ONES[width]
        node = self.nodes.of(ref)
        if runs and node.form == "count":
            sides = ("0", ONES[width]) if ref.is_denied else (ONES[width], "0")
            return f"(f{ref.node}_value ? {sides[0]} : {sides[1]})"
        text = f"f{ref.node}_word"
        if self.width_of(node) != width:
            text = f"(uint{width}_t){text}"
        return f"~{text}" if ref.is_denied else text

    def width_of(self, node: Node) -> int:
        return node.width() if node.form == "word" else node.word

    def known(self, ref: Ref, width: int) -> str:
        """The bits of a word that are known."""
        return ONES[width] if self.nodes.is_now(ref) else f"({ONES[width]} << f{ref.node}_lag)"

    def open(self, left: Ref, right: Ref, width: int, runs: bool) -> str:
        """The bits at which a conjunction isn't known."""
        one, other = (self.word(ref, width, runs) for ref in (left, right))
        if self.nodes.is_now(left):
            return f"{one} & ~{self.known(right, width)}"
        if self.nodes.is_now(right):
            return f"{other} & ~{self.known(left, width)}"
        one_known, other_known = self.known(left, width), self.known(right, width)
        return f"~(({one_known} & {other_known}) | ({one_known} & ~({one})) | ({other_known} & ~({other})))"

    def write_word(self, node: Node) -> None:
        if node.op == "and":
            self.write_word_and(node)
        else:
            self.write_word_until(node)
        if node.ring:
            f = f"f{node.number}"
            put = f"ring_put({self.ring(node)}, {node.ring - 1}, now - {f}_lag - {f}_new, {f}_word >> {f}_lag, {f}_new);"
            self.body.call("ring_put", f"if ({f}_new != 0) {put}")

    def write_word_and(self, node: Node) -> None:
        f, width, lag = f"f{node.number}", node.width(), self.body.member("uint32_t", f"f{node.number}_lag")
        runs = not node.word and self.nodes.takes_runs(node.left, node.right)
        one, other = (self.word(ref, width, runs) for ref in (node.left, node.right))
        opened = self.open(node.left, node.right, width, runs)
        self.body.call(f"length{width}", f"const uint32_t {f}_lag = length{width}({opened});")
        self.body.add(f"const uint32_t {f}_new = {lag} + 1 - {f}_lag;")
        self.body.add(f"const uint{width}_t {f}_word = {one} & {other};")
        self.body.add(f"{lag} = {f}_lag;")

    def write_word_until(self, node: Node) -> None:
        f, width, lag = f"f{node.number}", node.width(), self.body.member("uint32_t", f"f{node.number}_lag")
        past = self.body.member(f"uint{width}_t", f"{f}_past")
        sides = [text for ref in (node.left, node.right) for text in (self.word(ref, width), self.known(ref, width))]
        name = "until"
        if self.value_or_none(node.left) == "true":
            name, sides = "eventually", sides[2:]
        name += str(width)
        self.body.add(f"uint32_t {f}_lag = {lag} + 1;", f"uint{width}_t {f}_past = {past};")
        self.body.call(name, f"{name}({', '.join(sides)}, {node.low}, {node.high}, &{f}_lag, &{f}_past);")
        self.body.add(f"const uint32_t {f}_new = {lag} + 1 - {f}_lag;")
        self.body.add(f"const uint{width}_t {f}_word = {f}_past << {f}_lag;")
        self.body.add(f"{lag} = {f}_lag;", f"{past} = {f}_past;")

    def value_or_none(self, ref: Ref) -> str:
        return self.value(ref) if ref.node == CONSTANT else ""

    def queue(self, ref: Ref) -> str:
        """The verdicts of a formula in its ring."""
        flip = "UINT64_MAX" if ref.is_denied else "0"
        if ref.node == CONSTANT:
            flip = "0" if ref.is_denied else "UINT64_MAX"
            self.body.call("no_bits")
            return f"(struct queue){{no_bits, 0, now, {flip}}}"
        node = self.nodes.of(ref)
        end = "now" if node.form == "now" else f"now - f{ref.node}_lag"
        return f"(struct queue){{{self.ring(node)}, {node.ring - 1}, {end}, {flip}}}"

    def write_ring(self, node: Node) -> None:
        f, lag = f"f{node.number}", self.body.member("uint32_t", f"f{node.number}_lag")
        own = f"{self.ring(node)}, {node.ring - 1}, {f}_from"
        window = f"{node.low}, {node.high}, " if node.op == "until" else ""
        places = [f"&{self.body.member('uint32_t', f'{f}_place')}"] if node.op == "until" else []
        name, operands = "and_row" if node.op == "and" else "until_row", [node.left, node.right]
        if node.op == "until" and self.value_or_none(node.left) == "true":
            name, operands = "eventually_row", [node.right]
        elif node.op == "until":
            places.append(f"&{self.body.member('uint32_t', f'{f}_missed')}")
        self.body.add(f"const uint32_t {f}_from = now - 1 - {lag};")
        words = ", ".join([*map(self.queue, operands), window + own, *places])
        self.body.call(name, f"const uint32_t {f}_end = {name}({words});")
        self.body.add(f"const uint32_t {f}_new = {f}_end - {f}_from;", f"const uint32_t {f}_lag = now - {f}_end;")
        self.body.add(f"{lag} = {f}_lag;")
