"""Files of signals: what each operation gives, in Python and in C to the byte, faults with their lines, and traces."""

import math
import random
import shutil
import struct
import subprocess
import unittest

from support import ROOT, Case, tool

from r2u2tools.signals import Machine, check, emit, read_text
from r2u2tools.signals.model import TAKES
from r2u2tools.signals.raw import raw_of
from r2u2tools.signals.reading import KEYS

FORMS = {"float": ("<f", "<I"), "double": ("<d", "<Q")}
MAIN = """#include <stdio.h>
#include <string.h>
#include "t_signals.h"
static struct t_signals state;
int main(void)
{
    unsigned char raw[FIELDS];
    while (fread(raw, 1, sizeof raw, stdin) == sizeof raw) {
        struct t_raw fields;
        int32_t row[T_SIGNALS];
        LOADS
        t_signals(&state, &fields, row);
        for (int k = 0; k < T_SIGNALS; k++) printf(k ? ",%ld" : "%ld", (long)row[k]);
        putchar('\\n');
    }
    for (int k = 0; k < T_SIGNALS; k++) printf("%lu,%lu\\n", (unsigned long)state.missing[k], (unsigned long)state.saturated[k]);
    return 0;
}
"""
SIZES = {"bool": 1, "float": 4, "double": 8, **{f"{sign}int{bits}": bits // 8 for sign in ("", "u") for bits in (8, 16, 32, 64)}}


def packed(value, kind):
    """The bytes of a raw number in the struct of C."""
    if kind in FORMS:
        return struct.pack(FORMS[kind][0], value)
    return value.to_bytes(SIZES[kind], "little", signed=not kind.startswith("u") and kind != "bool")


def harness(signals):
    loads, at = [], 0
    for it in signals.fields:
        loads.append(f"memcpy(&fields.{it.member}, raw + {at}, {SIZES[it.type]});")
        at += SIZES[it.type]
    return MAIN.replace("FIELDS", str(at)).replace("LOADS", "\n        ".join(loads))


def lines_of_python(signals, rows):
    machine = Machine(signals)
    lines = [",".join(map(str, machine.row(row))) for row in rows]
    return lines + [f"{it.missing},{it.saturated}" for it in machine.columns]


@unittest.skipUnless(shutil.which("gcc"), "no gcc")
class InC(Case):
    def lines_of_c(self, signals, rows, *words):
        header, source = emit(signals, "t")
        for name, text in (("t_signals.h", header), ("t_signals.c", source), ("main.c", harness(signals))):
            self.file(name, text)
        flags = ["-std=c99", "-O1", "-Wall", "-Wextra", "-Wconversion", "-Wpedantic", "-Werror", *words]
        ran = subprocess.run(["gcc", *flags, "-o", "t", "main.c", "t_signals.c"], cwd=self.folder, capture_output=True, encoding="utf-8")
        self.assertEqual((ran.returncode, ran.stderr), (0, ""), source)
        raw = b"".join(packed(row[it.name], it.type) for row in rows for it in signals.fields)
        ran = subprocess.run([self.folder / "t"], input=raw, capture_output=True)
        self.assertEqual((ran.returncode, ran.stderr), (0, b""))
        return ran.stdout.decode().splitlines()

    def same(self, text, rows, *words):
        """Compares both over rows; a fault shows the file and the first line that differs."""
        signals, faults = read_text(text)
        self.assertEqual(faults, [], text)
        one, other = lines_of_python(signals, rows), self.lines_of_c(signals, rows, *words)
        differing = next(((k, a, b) for k, (a, b) in enumerate(zip(one, other)) if a != b), None)
        if differing or len(one) != len(other):
            at = differing[0] if differing else -1
            self.fail(f"{text}\nrow {at}: {rows[at] if at < len(rows) else ''}\nPython {differing and differing[1]}\nC      {differing and differing[2]}")
        return one

    def test_random_files(self):
        rng = random.Random(71)
        for k in range(25):
            text = random_file(rng)
            signals, faults = read_text(text)
            self.assertEqual(faults, [], text)
            rows = [{it.name: random_raw(rng, it.type) for it in signals.fields} for _ in range(400)]
            self.same(text, rows, *(["-fsanitize=undefined", "-fno-sanitize-recover"] if k < 8 else []))

    def test_ties_and_ends(self):
        """Each multiple of a half, and the numbers next to it, at each scale."""
        text = "".join(f'[s{k}]\nfrom = "x"\nscale = {scale}\noffset = {offset}\n' for k, (scale, offset) in enumerate(
            [(1, 0), (100, 0), (-100, 0), ("0.1", 0), ("0.001", "0.5"), (1000, "-0.0005"), ("1e17", 0), ("1e-17", 0), ("0.3", "1e-9"), (3, "1e17")]))
        values = [0.0, -0.0, math.inf, -math.inf, math.nan, 5e-324, -5e-324, 2.0**1023, -(2.0**1023), 1e-300]
        for half in (*range(-9, 10), 4294967293, 4294967294, 4294967295, 4294967296, -4294967295, -4294967296, -4294967297, -4294967298):
            for scale in (1, 100, 0.1, 0.001, 1000, 1e17, 1e-17, 0.3, 3):
                at = half / 2 / scale
                values += [at, math.nextafter(at, math.inf), math.nextafter(at, -math.inf)]
        self.same(text, [{"x": it} for it in values])

    def test_each_integer_of_a_byte(self):
        text = '[p]\nfrom = "b"\ntype = "uint8"\npolynomial = [-50, 0.5882352941176471]\nscale = 10\n'
        text += '[q]\nfrom = "b"\npoints = [[0, -1], [100.5, 12.25], [200, 3]]\nscale = 4\n[r]\nfrom = "b"\nbits = [2, 5]\n'
        self.same(text, [{"b": k} for k in range(256)], "-fsanitize=undefined")

    def test_windows(self):
        rng = random.Random(3)
        rows = [{"x": rng.choice((0, 1, -5, 2**31 - 1, -(2**31), rng.randint(-99, 99)))} for _ in range(300)]
        text = "".join(
            f'[{take}{window}]\nfrom = "x"\ntype = "int32"\ntake = "{take}"\nwindow = {window}\n'
            for take in ("count", "sum", "mean", "minimum", "maximum") for window in (1, 2, 3, 31, 32, 33, 64, 65, 100, 299, 300, 301, 1048576)
        )
        self.same(text, rows)


def random_file(rng):
    """A file with all kinds of signals over fields of all types."""
    kinds = {f"f{k}": rng.choice(list(SIZES)) for k in range(4)}
    lines = []
    for k in range(rng.randint(3, 9)):
        name, kind = rng.choice(list(kinds.items()))
        lines.append(f"[c{k}]")
        if rng.random() < 0.1:
            other = rng.choice(list(kinds))
            lines += [f'set = "{name}"', *([f'clear = "{other}"'] if rng.random() < 0.7 else [])]
            continue
        lines += [f'from = "{name}"', f'type = "{kind}"', *random_conversion(rng, kind)]
        if rng.random() < 0.2:
            lines.append(f"missing = {rng.choice((0, -1, 77, -2147483648))}")
        take = rng.choice(("", "", "previous", "absolute", "difference", "rate", "count", "sum", "mean", "minimum", "maximum"))
        lines += [f'take = "{take}"'] if take else []
        if take in ("count", "sum", "mean", "minimum", "maximum"):
            lines.append(f"window = {rng.choice((1, 2, 3, 7, 32, 50, 399, 1000))}")
        elif rng.random() < 0.2 and not any(it.startswith("scale") for it in lines[lines.index(f"[c{k}]"):]):
            lines.append(f"wrapped = {rng.choice((2, 3, 360, 2147483647))}")
        if take == "rate":
            lines.append(f"hz = {rng.choice((1, 10, 0.5, 100000000))}" if rng.random() < 0.7 else 'hz = "30000/1001"')
        if take == "previous" and rng.random() < 0.5:
            lines.append(f"first = {rng.choice((0, 5, -2147483648))}")
    stated = {line.split('"')[1] for line in lines if line.startswith("from")}
    for name in kinds.keys() - stated:
        lines += [f"[plain_{name}]", f'from = "{name}"', f'type = "{kinds[name]}"']
    return "\n".join([*lines, ""])


def random_number(rng):
    return rng.choice(("1", "2", "100", "1000", "0.1", "-0.5", "1e-17", "123456789012345678", "3.25", f"{rng.uniform(-1000, 1000):.6f}", str(rng.randint(1, 9999))))


def random_conversion(rng, kind):
    way = rng.randrange(6)
    if way == 0 and kind not in ("float", "double", "bool"):
        low = rng.randrange(8)
        return [f"bit = {low}"] if rng.random() < 0.5 else [f"bits = [{rng.randint(0, low)}, {low}]"]
    scale = [f"scale = {random_number(rng)}"] if rng.random() < 0.6 else []
    if way == 1:
        return [*scale, f"polynomial = [{', '.join(random_number(rng) for _ in range(rng.randint(2, 5)))}]"]
    if way == 2:
        raws = sorted({round(rng.uniform(-300, 300), rng.choice((0, 2))) for _ in range(rng.randint(2, 6))} | {1000, -1000.5})
        return [*scale, f"points = [{', '.join(f'[{raw}, {rng.randint(-500, 500) / 4}]' for raw in raws)}]"]
    return [*scale, *([f"offset = {random_number(rng)}"] if rng.random() < 0.4 else [])]


def random_raw(rng, kind):
    if kind not in FORMS:
        bits = 1 if kind == "bool" else 8 * SIZES[kind]
        least = 0 if kind.startswith("u") or kind == "bool" else -(1 << (bits - 1))
        ends = (least, least + (1 << bits) - 1, least + 1, 0, 1)
        return rng.choice((*ends[: 2 if kind == "bool" else 5], rng.randrange(least, least + (1 << bits)), rng.randrange(least, least + (1 << bits))))
    form, whole = FORMS[kind]
    way = rng.randrange(8)
    if way == 0:
        return rng.choice((math.nan, math.inf, -math.inf, 0.0, -0.0))
    if way == 1:
        return struct.unpack(form, struct.pack(whole, rng.getrandbits(8 * struct.calcsize(form))))[0]
    value = rng.uniform(-400, 400) if way < 5 else rng.randint(-4000, 4000) / 8 if way < 7 else rng.uniform(-1, 1) * 2.0 ** rng.randint(-100, 100)
    return struct.unpack(form, struct.pack(form, value))[0]


class Definitions(Case):
    """Each row of the tables of docs/reference/signals.md is what Python computes."""

    def test_the_page(self):
        seen = 0
        for line in (ROOT / "docs/reference/signals.md").read_text().splitlines():
            cells = [cell.strip() for cell in line.split("|")[1:-1]]
            if len(cells) not in (4, 5) or cells[0] in ("keys", "---") or set(cells[0]) == {"-"}:
                continue
            keys = [code for code in cells[0].split("`") if "=" in code]
            latch = keys and keys[0].startswith("set")
            signals, faults = read_text("\n".join(["[column]", *([] if latch else ['from = "x"']), *keys]))
            self.assertEqual(faults, [], line)
            machine, lists = Machine(signals), [cell.split(", ") for cell in cells[2:]]
            for row, values in enumerate(zip(*lists[:-1])):
                raws = {it.name: raw_of(text, it) for it, text in zip(signals.fields, values)}
                self.assertEqual(machine.row(raws), [int(lists[-1][row])], f"{line}: row {row}")
            seen += 1
        self.assertEqual(seen, 27)

    def test_every_operation_is_on_the_page(self):
        page = (ROOT / "docs/reference/signals.md").read_text()
        for word in (*KEYS, *TAKES):
            self.assertRegex(page, rf"`(?:{word} =|take = \"{word}\"|{word}`)" if word not in ("from", "missing") else word)


    def test_the_patterns(self):
        """The latches of two patterns are what their files of signals make of the other columns."""
        page = (ROOT / "docs/reference/patterns.md").read_text()
        for name in ("latched", "before"):
            signals, faults = read_text(page.partition(f'```toml title="{name}.toml"\n')[2].partition("```")[0])
            self.assertEqual(faults, [])
            head, *rows = (ROOT / f"examples/patterns/{name}.csv").read_text().splitlines()
            machine, columns = Machine(signals), head.removeprefix("# ").split(",")
            self.assertEqual(columns, [it.name for it in signals.columns])
            for row in rows:
                raws = {key: int(value) for key, value in zip(columns, row.split(","))}
                self.assertEqual(",".join(map(str, machine.row(raws))), row)


class Reading(Case):
    def faults(self, text):
        return [(it.line, it.text) for it in read_text(text)[1]]

    def test_faults_have_their_lines(self):
        for text, line, said in (
            ("[a]\nfrom = 3\n", 2, "from isn't the name of a field"),
            ("[a]\n\nfrm = 'x'\n", 3, "no key frm"),
            ("a = 3\n", 1, "a isn't a table"),
            ("[a]\nscale = 2\n", 1, "no from"),
            ("[a]\nfrom = 'x'\nscale = 1.5.2\n", 3, "not TOML"),
            ("[a]\nfrom = 'x'\nscale = 0\n", 3, "scale = 0 leaves nothing"),
            ("[a]\nfrom = 'x'\nscale = 'fast'\n", 3, "isn't a number"),
            ("[a]\nfrom = 'x'\nscale = inf\n", 3, "a number is needed"),
            ("[a]\nfrom = 'x'\nscale = 1e30\n", 3, "more than 18 digits"),
            ("[a]\nfrom = 'x'\npoints = [[1, 2], [1, 3]]\n", 3, "isn't above 1"),
            ("[a]\nfrom = 'x'\npolynomial = [1, 0]\n", 3, "the last number isn't 0"),
            ("[a]\nfrom = 'x'\noffset = 1\npolynomial = [1, 2]\n", 4, "exclude each other"),
            ("[a]\nfrom = 'x'\nbit = 3\nscale = 2\n", 4, "exclude each other"),
            ("[a]\nfrom = 'x'\nbit = 32\n", 3, "isn't from 0 to 31"),
            ("[a]\nfrom = 'x'\ntype = 'int'\n", 3, "isn't bool, int8"),
            ("[a]\nfrom = 'x'\ntake = 'average'\n", 3, "isn't previous"),
            ("[a]\nfrom = 'x'\ntake = 'sum'\n", 3, "needs window"),
            ("[a]\nfrom = 'x'\ntake = 'sum'\nwindow = 0\n", 4, "isn't from 1 to 1048576"),
            ("[a]\nfrom = 'x'\nwindow = 3\n", 3, "doesn't fit a signal without take"),
            ("[a]\nfrom = 'x'\ntake = 'rate'\n", 3, "needs hz"),
            ("[a]\nfrom = 'x'\nscale = 0.3\nwrapped = 1\n", 4, "an integer from 2"),
            ("[a]\nset = 'x'\nscale = 3\n", 3, "no key of a latch"),
            ("[a]\nclear = 'x'\n", 2, "a latch needs set"),
            ("['a b']\nfrom = 'x'\n", 1, "can't name a column"),
            ("[a]\nfrom = 'x.y'\n[b]\nfrom = 'x_y'\n", 3, "the same name in C"),
            ("[a]\nfrom = 'x'\ntype = 'int8'\n[b]\nfrom = 'x'\ntype = 'bool'\n", 4, "the types int8 and bool"),
            ("[a]\nfrom = 'x'\nnames = { A = 1 }\n[b]\nfrom = 'x'\nnames = { A = 2 }\n", 4, "two numbers"),
            ("", 1, "no signal"),
        ):
            found = self.faults(text)
            self.assertEqual(len(found), 1, (text, found))
            self.assertEqual(found[0][0], line, (text, found))
            self.assertIn(said, found[0][1], text)

    def test_each_fault_is_found(self):
        self.assertEqual([line for line, _ in self.faults("[a]\nfrom = 1\n[b]\nfrom = 'x'\n[c]\nfrom = 2\n")], [2, 6])

    def test_a_specification(self):
        signals, _ = read_text("[speed]\nfrom = 'v'\n[on]\nfrom = 'w'\n[extra]\nfrom = 'z'\n[flag]\nfrom = 'f'\nbit = 1\n")
        found = check([("sped", "int", 4), ("on", "bool", 5), ("flag", "bool", 5), ("other", "int", 6)], signals)
        self.assertEqual([(it.line, it.in_spec) for it in found], [(1, False), (3, False), (5, False), (4, True), (6, True)])
        self.assertIn("did you mean speed?", found[3].text)
        self.assertIn('type = "bool"', found[1].text)


class InTraces(Case):
    SIGNALS = "[speed]\nfrom = 'v'\nscale = 100\n[jump]\nfrom = 'v'\ntake = 'difference'\n[on]\nfrom = 'flags'\nbit = 0\n"

    def trace(self, text, *words, name="in.csv", signals=SIGNALS, status=0):
        path, chosen = self.file(name, text), self.file("s.toml", signals)
        found, out, errors = tool("trace", "--signals", chosen, *words, path)
        self.assertEqual(found, status, errors)
        return out, errors

    def test_plain_lines(self):
        out, errors = self.trace("v,flags\n1.5,1\n,2\n1e9,0x3\n")
        self.assertEqual(out, "# speed,jump,on\n150,0,1\n150,0,0\n2147483647,999999998,1\n")
        self.assertIn("1 row of speed without a value", errors)
        self.assertIn("1 row of speed out of range", errors)

    def test_times(self):
        out, _ = self.trace("t,v,flags\n0,1,1\n0.3,4,0\n", "--time", "t", "--rate", "10")
        self.assertEqual(out, "# speed,jump,on\n100,0,1\n100,0,1\n100,0,1\n400,3,0\n")

    def test_the_order_of_a_specification(self):
        spec = self.file("s.c2po", "INPUT on: bool; speed: int;\nFTSPEC f: on -> speed > 3;\n")
        self.assertEqual(self.trace("v,flags\n1,1\n", "--spec", spec)[0], "# on,speed\n1,100\n")
        spec = self.file("s.c2po", "INPUT speed: bool;\nFTSPEC f: speed;\n")
        self.assertIn("line 1: speed is bool in the specification", self.trace("v,flags\n1,1\n", "--spec", spec, status=2)[1])
        spec = self.file("s.c2po", "INPUT sped: int;\nFTSPEC f: sped > 3;\n")
        self.assertIn("no signal makes the column sped", self.trace("v,flags\n1,1\n", "--spec", spec, status=2)[1])

    def test_other_forms_of_telemetry(self):
        self.assertEqual(self.trace('{"v": 1.5, "flags": 1}\n{"v": null, "flags": 0}\n', name="in.jsonl")[0], "# speed,jump,on\n150,0,1\n150,0,0\n")
        long = "t,name,value\n0,v,1\n0,flags,1\n1,v,3\n"
        self.assertEqual(self.trace(long, "--time", "t", "--rate", "1", "--long", "name,value")[0], "# speed,jump,on\n100,0,1\n300,2,1\n")
        dump = "$timescale 1 s $end $var wire 8 v v $end $var wire 2 f flags $end $enddefinitions $end\n#0 bxx v bxx f\n#1 b10 v b01 f\n#2\n"
        self.assertEqual(self.trace(dump, "--rate", "1", name="in.vcd")[0], "# speed,jump,on\n0,0,0\n200,2,1\n200,0,1\n")

    def test_faults(self):
        self.assertIn("line 3, column 2 (flags): '0.5' isn't an integer", self.trace("v,flags\n1,1\n1,0.5\n", status=1)[1])
        self.assertIn("line 2, column 1 (v): 'fast' isn't a number", self.trace("v,flags\nfast,1\n", status=1)[1])
        self.assertIn("no column flags", self.trace("v\n1\n", status=1)[1])
        self.assertIn("--signals says what --scale says", self.trace("v,flags\n1,1\n", "--scale", "speed=1", status=2)[1])
        words = ("--time", "t", "--rate", "1", "--stamps")
        self.assertIn("jump looks back by rows", self.trace("t,v,flags\n0,1,1\n", *words, status=2)[1])
        self.assertIn("line 2: no key frm", self.trace("v\n1\n", signals="[a]\nfrm = 'v'\n", status=2)[1])
