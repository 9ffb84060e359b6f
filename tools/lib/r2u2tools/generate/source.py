"""The header and the source of a program."""

from __future__ import annotations

from dataclasses import dataclass, field

from r2u2tools.generate.arithmetic import Arithmetic
from r2u2tools.generate.future import ONES, Future
from r2u2tools.generate.lines import Body, folded, needed, pruned
from r2u2tools.generate.nodes import Nodes
from r2u2tools.generate.past import Past
from r2u2tools.generate.program import Program
from r2u2tools.generate.reports import Reports


@dataclass
class Options:
    """What is written: the name of the struct, and for each output that has handlers the words that they are called at."""

    name: str
    handlers: dict[int, tuple[str, ...]] = field(default_factory=dict)
    has_step: bool = False
    keep_rows: bool = False


class Source:
    """The two files of a program."""

    def __init__(self, program: Program, options: Options) -> None:
        self.program, self.options, self.name = program, options, options.name
        self.arithmetic, self.nodes = Arithmetic(program), Nodes(program)
        self.body = Body()
        self.future, self.past = Future(self.nodes, self.body), Past(program, self.body)
        self.reports = Reports(program, self.nodes, self.future, self.past, self.body)
        self.row = self.row_function()
        self.step = self.step_function() if options.has_step else []
        self.fetch = self.reports.fetch(self.name) if self.reports.rings else []
        self.delays = [self.delay(k) for k in range(len(program.outputs))]

    def delay(self, k: int) -> int:
        """The most rows after its own with which a verdict of an output is out."""
        it = self.program.outputs[k]
        return 0 if it.is_past else self.nodes.worst(*self.nodes.sides(it)[: 1 + it.is_contract])

    def upper(self, text: str) -> str:
        return f"{self.name.upper()}_{text}"

    # The row

    def loads(self) -> set[int]:
        used = {node.load for node in self.nodes.all.values() if node.is_read and node.op == "load"}
        return used | {self.program.pt[k].left for k in self.past.used if self.program.pt[k].op == "load"}

    def evaluate(self) -> None:
        """Writes all instructions."""
        self.body.add(*self.arithmetic.lines(self.arithmetic.below(self.loads())))
        self.past.write()
        self.future.write()

    def row_function(self) -> list[str]:
        self.evaluate()
        for k in range(len(self.program.outputs)):
            self.reports.keep(k, self.reports.found(k))
        before = self.refusals()
        if self.program.outputs:
            count = self.upper("OUTPUTS")
            left = [f"while (it->at < {count} && it->open[it->at].left == 0) it->at += 1;", f"if (it->at < {count}) return false;"]
            before = [*left, *before, "it->at = 0;"]
        return self.function(f"bool {self.name}_row(struct {self.name} *it, const int32_t row)", before)

    def refusals(self) -> list[str]:
        """The lines that refuse a row by its Booleans."""
        truths = sorted({it.left for it in self.program.bz if it.op == "truth"})
        return [f"if ((uint32_t)({' | '.join(f'row[{k}]' for k in truths)}) > 1) return false;"] if truths else []

    # The row with handlers

    def depth(self) -> int:
        """How many rows are kept for handlers: those of all verdicts, or the latest."""
        return 1 + max((self.delay(k) for k in self.options.handlers), default=0) if self.options.keep_rows else 1

    def step_function(self) -> list[str]:
        self.evaluate()
        for k in range(len(self.program.outputs)):
            self.reports.tell(k, self.name, self.options.handlers.get(k, ()))
        kept = [self.body.member("const int32_t *", "row") + " = row;"]
        if self.depth() > 1:
            width, depth, at = self.program.width, self.depth(), self.body.member("uint32_t", "slot")
            rows = self.body.member("int32_t", "kept", depth * width)
            kept = [f"{at} = {at} + 1 == {depth} ? 0 : {at} + 1;", f"for (uint32_t k = 0; k < {width}; k++) {rows}[{at} * {width}u + k] = row[k];"]
            del self.body.members["row"]
        return self.function(f"bool {self.name}_step(struct {self.name} *it, const int32_t row)", [*self.refusals(), *kept])

    def row_at(self) -> list[str]:
        """The function that returns the row of a time."""
        lines = [
            f"const int32_t *{self.name}_row_at(const struct {self.name} *it, uint64_t time) {{",
            "    const uint64_t age = it->rows - 1 - time;",
            f"    if (time >= it->rows || age >= {self.depth()}) return 0;",
        ]
        if self.depth() == 1:
            return [*lines, "    return it->row;", "}", ""]
        at = f"it->slot >= (uint32_t)age ? it->slot - (uint32_t)age : it->slot + {self.depth()} - (uint32_t)age"
        return [*lines, f"    const uint32_t slot = {at};", f"    return &it->kept[slot * {self.program.width}u];", "}", ""]

    def handler_declarations(self) -> list[str]:
        name, outputs = self.name, self.program.outputs
        row = f"row[{self.upper('WIDTH')}]" if self.program.width else "*row"
        size = 4 * self.depth() * self.program.width
        memory = f" The monitor keeps {self.depth()} rows in {size} bytes." if self.depth() > 1 else ""
        return [
            "/* Functions of yours, which are called for each verdict with this word, with its time. */",
            *(f"void {name}_on_{outputs[k].name}_{word}(uint64_t time);" for k, words in self.options.handlers.items() for word in words),
            "",
            "/* Takes the next row, and calls the functions above: outputs in order, and the times of each in order. Returns false, and",
            f" * changes nothing, if a Boolean is neither 0 nor 1. Reports of {name}_row have to be asked for before. */",
            f"bool {name}_step(struct {name} *it, const int32_t {row});",
            "",
            f"/* Returns, within a function that {name}_step calls, the row of a time; 0 for one that isn't kept.{memory} */",
            f"const int32_t *{name}_row_at(const struct {name} *it, uint64_t time);",
            "",
        ]

    def function(self, head: str, before: list[str]) -> list[str]:
        """A function that takes a row, with the lines of the body."""
        lines = pruned(self.body.lines)
        self.body.lines = []
        text = "\n".join(lines)
        uses_now, uses_row = "now" in text, "row[" in text or any("row[" in line for line in before)
        body = [*before, "it->rows += 1;"]
        if uses_now:
            body.append("const uint32_t now = (uint32_t)it->rows;")
        if not uses_row:
            body.append("(void)row;")
        width = self.upper("WIDTH")
        head = head.replace("const int32_t row", f"const int32_t row[{width}]" if self.program.width else "const int32_t *row")
        return [f"{head} {{", *(piece for line in [*body, *lines, "return true;"] for piece in folded(f"    {line}")), "}", ""]

    # The header

    def header(self) -> str:
        name, program = self.name, self.program
        members = [f"    {text}" for text in self.body.members.values()]
        bits = f"uint{self.reports.width}_t"
        opened = [f"    struct {name}_open open[{self.upper('OUTPUTS')}];"] if program.outputs else []
        boxes = ["/* A stretch of times. */", "#ifndef R2U2_BOX", "#define R2U2_BOX", "struct box {", "    uint32_t first, last;", "};", "#endif", ""]
        return "\n".join(
            [
                *self.head(),
                *self.words(),
                "struct " + f"{name}_report {{",
                "    uint64_t time;   /* in rows, the first of which has time 0 */",
                "    uint32_t output; /* counted from 0 */",
                "    uint32_t word;   /* one of the words above */",
                "};",
                "",
                "/* The verdicts of an output that weren't asked for. The members are the monitor's. */",
                f"struct {name}_open {{",
                "    uint32_t lag, left;",
                f"    {bits} bits{', assumed' if self.reports.has_contracts else ''};",
                "};",
                "",
                *(boxes if "boxes" in self.body.calls else []),
                "/* A monitor. One that is all zero has taken no rows. The members are the monitor's. */",
                f"struct {name} {{",
                "    uint64_t rows;",
                "    uint32_t at;",
                *opened,
                *members,
                "};",
                "",
                *self.declarations(),
                "#ifdef __cplusplus",
                "}",
                "#endif",
                "",
                "#endif",
                "",
            ]
        )

    def head(self) -> list[str]:
        guard, program = self.upper("H"), self.program
        return [
            f"/* {self.name}.h: a monitor of one program, as r2u2-generate wrote it. Nothing of it is proved.",
            " *",
            f" * The program's SHA-256 is {program.digest}. */",
            f"#ifndef {guard}",
            f"#define {guard}",
            "",
            "#include <stdbool.h>",
            "#include <stdint.h>",
            "",
            "#ifdef __cplusplus",
            'extern "C" {',
            "#endif",
            "",
            f"#define {self.upper('WIDTH')} {program.width}u",
            f"#define {self.upper('OUTPUTS')} {len(program.outputs)}u",
            "",
            *self.numbers("column", [(it.name, it.column) for it in program.signals]),
            *self.numbers("output", [(it.name, k) for k, it in enumerate(program.outputs)]),
        ]

    def numbers(self, what: str, found: list[tuple[str, int]]) -> list[str]:
        """The numbers of columns or outputs by name; of two with one name the first."""
        first: dict[str, int] = {}
        for name, number in found:
            first.setdefault(name, number)
        if not first:
            return []
        text = [f"    {self.name}_{what}_{name} = {number}," for name, number in first.items()]
        return [f"/* The {what}s, counted from 0. */", f"enum {self.name}_{what} {{", *text[:-1], text[-1].rstrip(","), "};", ""]

    def words(self) -> list[str]:
        remarks = {"INACTIVE": "the assumption is false", "INVALID": "the assumption is true, and the guarantee is false"}
        remarks["VERIFIED"] = "both are true"
        lines = ["/* The word of an output at a time: the verdict of a formula, or the status of a contract. */"]
        lines.append(f"enum {self.name}_word {{")
        for number, word in enumerate(("FALSE", "TRUE", "INACTIVE", "INVALID", "VERIFIED")):
            comma, remark = "," * (number < 4), f" /* {remarks[word]} */" if word in remarks else ""
            lines.append(f"    {self.upper(word)} = {number}{comma}{remark}")
        return [*lines, "};", ""]

    def declarations(self) -> list[str]:
        name = self.name
        row = f"row[{self.upper('WIDTH')}]" if self.program.width else "*row"
        tables = [
            "/* Of each output its name, whether it is a contract, and the most rows after its own with which a verdict is out. */",
            f"extern const char *const {name}_names[{self.upper('OUTPUTS')}];",
            f"extern const bool {name}_contracts[{self.upper('OUTPUTS')}];",
            f"extern const uint32_t {name}_delays[{self.upper('OUTPUTS')}];",
            "",
        ]
        return [
            *(tables if self.program.outputs else []),
            "/* The SHA-256 of the program. */",
            f"extern const uint8_t {name}_digest[32];",
            "",
            "/* Resets a monitor to its state before the first row. */",
            f"void {name}_init(struct {name} *it);",
            "",
            "/* Takes the next row: a Boolean is 0 or 1, and columns that the program doesn't read may hold anything. Returns false,",
            " * and changes nothing, if a Boolean is another number or reports of the row before are left. */",
            f"bool {name}_row(struct {name} *it, const int32_t {row});",
            "",
            "/* Returns the next report of the rows so far, in `report`: outputs in order, and the times of each in order. Returns",
            " * false if none is left. */",
            f"bool {name}_next(struct {name} *it, struct {name}_report *report);",
            "",
            "/* The same with one report for each longest run of times with one word that a row decides, with its last time. */",
            f"bool {name}_next_run(struct {name} *it, struct {name}_report *report);",
            "",
            *(self.handler_declarations() if self.step else []),
        ]

    # The source

    def source(self) -> str:
        out = [f"/* {self.name}.c: a monitor of one program, as r2u2-generate wrote it. Nothing of it is proved. */"]
        out += ["#include <limits.h>", ""] if any(call.startswith("length") for call, _ in self.functions()) else []
        out += [f'#include "{self.name}.h"', ""]
        out += self.tables()
        for name, text in self.functions():
            if name != "box":
                out += [text, ""]
        out += [*self.init(), *self.fetch, *self.row, *self.next(), *self.next_run()]
        if self.step:
            out += [*self.step, *self.row_at()]
        return "\n".join(out)

    def functions(self) -> list[tuple[str, str]]:
        calls = dict(self.body.calls)
        if self.program.outputs:
            calls[f"length{self.reports.width}"] = None
        return needed(calls)

    def tables(self) -> list[str]:
        name, outputs, lines = self.name, self.program.outputs, list[str]()
        if outputs:
            lines += table(f"const char *const {name}_names", [f'"{it.name}"' for it in outputs])
            lines += table(f"const bool {name}_contracts", ["true" if it.is_contract else "false" for it in outputs])
            lines += table(f"const uint32_t {name}_delays", [str(it) for it in self.delays])
        if self.reports.rings:
            lines.append("/* Of each output whether its verdicts are read from a ring. */")
            lines += table("static const bool in_ring", ["true" if k in self.reports.rings else "false" for k in range(len(outputs))])
        digest = self.program.digest
        return [*lines, *table(f"const uint8_t {name}_digest", [f"0x{digest[k:k + 2]}" for k in range(0, 64, 2)])]

    def init(self) -> list[str]:
        lines = [f"void {self.name}_init(struct {self.name} *it) {{", "    it->rows = 0;", "    it->at = 0;"]
        if self.program.outputs:
            members = ["lag", "left", "bits", *(["assumed"] if self.reports.has_contracts else [])]
            lines.append(f"    for (uint32_t k = 0; k < {self.upper('OUTPUTS')}; k++) {{")
            lines += [f"        it->open[k].{member} = 0;" for member in members] + ["    }"]
        for member, text in self.body.members.items():
            if text.startswith("struct box"):
                count = text[text.index("[") + 1 : -2]
                lines.append(f"    for (uint32_t k = 0; k < {count}; k++) it->{member}[k].first = it->{member}[k].last = 0;")
            elif "[" in text:
                count = text[text.index("[") + 1 : -2]
                lines.append(f"    for (uint32_t k = 0; k < {count}; k++) it->{member}[k] = 0;")
            else:
                lines.append(f"    it->{member} = 0;")
        return [*lines, "}", ""]

    def finding(self, name: str) -> list[str]:
        return [
            f"bool {self.name}_{name}(struct {self.name} *it, struct {self.name}_report *report) {{",
            f"    for (uint32_t k = it->at; k < {self.upper('OUTPUTS')}; k++) {{",
            f"        struct {self.name}_open *open = &it->open[k];",
            "        if (open->left == 0) continue;",
            f"        const uint32_t bit = (open->left - 1) & {self.reports.width - 1};",
        ]

    def word(self) -> list[str]:
        value = "(uint32_t)(open->bits >> bit & 1)"
        if not self.reports.has_contracts:
            return [f"        report->word = {value};"]
        return [
            f"        report->word = {value};",
            f"        if ({self.name}_contracts[k]) report->word = (open->assumed >> bit & 1) != 0 ? 3 + report->word : 2;",
        ]

    def refetch(self) -> list[str]:
        """The line that reads on in a ring."""
        if not self.reports.rings:
            return []
        return ["        if (open->left != 0 && (open->left & 63) == 0) fetch(it, k);"]

    def next(self) -> list[str]:
        if not self.program.outputs:
            return self.no_next("next")
        return [
            *self.finding("next"),
            *self.word(),
            "        report->time = it->rows - (open->lag + open->left);",
            "        report->output = k;",
            "        open->left -= 1;",
            *self.refetch(),
            "        it->at = k;",
            "        return true;",
            "    }",
            f"    it->at = {self.upper('OUTPUTS')};",
            "    return false;",
            "}",
            "",
        ]

    def no_next(self, name: str) -> list[str]:
        head = f"bool {self.name}_{name}(struct {self.name} *it, struct {self.name}_report *report) {{"
        return [head, "    (void)it;", "    (void)report;", "    return false;", "}", ""]

    def next_run(self) -> list[str]:
        if not self.program.outputs:
            return self.no_next("next_run")
        ones, width = ONES[self.reports.width], self.reports.width
        return [
            *self.finding("next_run"),
            *self.word(),
            *self.run_lines(ones, width),
            "        report->time = it->rows - (open->lag + open->left) - 1;",
            "        report->output = k;",
            "        it->at = k;",
            "        return true;",
            "    }",
            f"    it->at = {self.upper('OUTPUTS')};",
            "    return false;",
            "}",
            "",
        ]

    def run_lines(self, ones: str, width: int) -> list[str]:
        """The lines that pass over a run: those of rings in turns of 64 verdicts."""
        same = ["        const bool value = (open->bits >> bit & 1) != 0;"]
        differs = f"open->bits ^ (value ? {ones} : 0)"
        assumed = []
        if self.reports.has_contracts:
            same.append(f"        const bool is_contract = {self.name}_contracts[k], assumed = (open->assumed >> bit & 1) != 0;")
            assumed = [
                "            if (is_contract && assumed) differs |= ~open->assumed;",
                "            if (is_contract && !assumed) differs = open->assumed;",
            ]
        ring = self.reports.rings
        whole = "differs == 0 && !in_ring[k]" if ring else "differs == 0"
        count = f"((open->left - 1) & {width - 1}) + 1"
        return [
            *same,
            "        for (;;) {",
            f"            uint{width}_t differs = {differs};",
            *assumed,
            f"            const uint32_t count = {count};",
            f"            const uint32_t rest = length{width}(differs & ({ones} >> ({width} - count)));",
            f"            open->left = {whole} ? 0 : open->left - count + rest;",
            "            if (rest != 0 || open->left == 0) break;",
            *(["            fetch(it, k);"] if ring else []),
            "        }",
        ]


def table(head: str, items: list[str]) -> list[str]:
    """A constant array, some elements a line."""
    lines, line = [f"{head}[{len(items)}] = {{"], "   "
    for k, item in enumerate(items):
        piece = f" {item}{',' if k + 1 < len(items) else ''}"
        if len(line) + len(piece) > 120:
            lines.append(line)
            line = "   "
        line += piece
    return [*lines, line, "};", ""]
