"""tools/budget: its figures are those of the table of c2po, of the whole and of each output, and its limits end a build."""

import csv
import ctypes
import io
import json
import os
import random
import subprocess
import unittest
from unittest import mock

import random_specs
from shown_text import definitions
from support import ROOT, Case, program, tool
from r2u2tools.budget.costs import Costs
from r2u2tools.common.compiled import compiled

import r2u2

SPECS = 40
SHARED = """INPUT p, q: bool; x, y: int;
DEFINE near := x - y < 3 && p; late := F[0,5] near;
FTSPEC a: near -> late; b: q => late;
PTSPEC d: O[2,9] (x - y < 3);
"""
TEXT = """       bz  ft  pt  slots  boxes          delay  steps  reports
whole   7   9   3     39      2  5 rows, 0.5 s    389       13
a       6   8   0     33      0  5 rows, 0.5 s    322        6
b       7   6   0     21      0  5 rows, 0.5 s    188        6
d       5   0   3      0      2    0 rows, 0 s     22        1

bytes are left out: no nowhere.so: `make python` builds it, and R2U2_LIBRARY may name another

costliest             slots  boxes  steps    in
late: F[0,5] near         6            56  a, b
near -> late              6            56     a
near: x - y < 3 && p      6            36  a, b
O[2,9] (x - y < 3)               2      4     d

shared, and there once
  x - y < 3  by a, b, d
  late: F[0,5] near  by a, b
"""

# The outputs as trees are more than 65,536 leaves and operators.
MANY = f"INPUT p: bool;\nPTSPEC few: foratmost(k: {{{', '.join(f'O[{k},{k}] p' for k in range(30))}}}, 3)(k);\n"
NO_LIBRARY = {"R2U2_LIBRARY": "nowhere.so"}


def library():
    """The path of the library; without it the test that asks for it is skipped."""
    path = os.environ.get("R2U2_LIBRARY") or str(ROOT / "build" / "libr2u2.so")
    if not os.path.isfile(path):
        raise unittest.SkipTest(f"no {path}: make python builds it, and R2U2_LIBRARY may name another")
    return os.path.abspath(path)


def table(spec):
    """The table of c2po, as rows by name of column."""
    out = subprocess.run([program("c2po"), "--table", str(spec)], stdout=subprocess.PIPE, check=True, encoding="ascii").stdout
    return list(csv.DictReader(io.StringIO(out)))


def width(spec):
    """The columns of a specification without a header: one for each signal that it declares."""
    out = subprocess.run([program("c2po"), "-o", "/dev/stdout", str(spec)], stdout=subprocess.PIPE, check=True).stdout
    return int.from_bytes(out[8:12], "little")


def sizes(rows, engine):
    return sum(int(row["size"]) for row in rows if row["engine"] == engine)


class Figures(Case):
    def told(self, spec, *words):
        status, out, errors = tool("budget", "--json", *words, spec)
        self.assertEqual((status, errors), (0, ""))
        return json.loads(out)

    def check(self, spec):
        """The whole has the sums of the table, and each output no more; together they have all of it."""
        rows, found = table(spec), self.told(spec)
        whole, outputs = found["whole"], found["outputs"]
        self.assertEqual((whole["slots"], whole["boxes"]), (sizes(rows, "ft"), sizes(rows, "pt")))
        for part in ("bz", "ft", "pt"):
            self.assertEqual(whole[part], sum(row["engine"] == part for row in rows))
        for key in ("bz", "ft", "pt", "slots", "boxes", "steps"):
            self.assertTrue(all(it[key] <= whole[key] for it in outputs), key)
            more = width(spec) + 3 if key == "steps" else 0
            self.assertLessEqual(whole[key], sum(it[key] for it in outputs) + more, key)
        self.assertEqual(whole["delay"], max(it["delay"] for it in outputs))
        self.assertEqual(whole["reports"], sum(it["reports"] for it in outputs))

    def test_the_table_of_each_example(self):
        program("c2po")
        for spec in sorted((ROOT / "examples").glob("**/*.c2po")):
            with self.subTest(spec=spec.name):
                self.check(spec)

    def test_the_table_of_random_specifications(self):
        program("c2po")
        for seed in range(SPECS):
            self.check(self.file("spec.c2po", random_specs.spec(random.Random(seed))))

    def test_a_program_file_is_read_as_c2po_writes_it(self):
        """Its definitions are those of --show, its sizes and delays those of --table."""
        for seed in range(SPECS):
            text = random_specs.spec(random.Random(seed)) + "INPUT d0, d2: int;\nFTSPEC more: -d0 % 3 == d2 - 7 => F[1,2] (d0 / -2 < d2);\n"
            made = compiled(self.file("spec.c2po", text), self.folder)
            shown = definitions(subprocess.run([program("c2po"), "--show", str(made.path)], stdout=subprocess.PIPE, check=True, encoding="ascii").stdout)
            found = made.shown
            self.assertEqual((found.signals, found.nodes, found.outputs), (shown.signals, shown.nodes, shown.outputs))
            costs = Costs(made)
            for row in table(self.folder / "spec.c2po"):
                place = row["engine"], int(row["number"])
                self.assertEqual(costs.all[place].op, row["operation"])
                self.assertEqual((costs.best[place], costs.worst[place]), (int(row["best"] or 0), int(row["worst"] or 0)))
                self.assertEqual(costs.all[place].size, int(row["size"] or 0))

    def test_a_program_that_is_too_large_to_show(self):
        found = self.told(self.file("few.c2po", MANY))
        self.assertEqual((found["whole"]["pt"], found["whole"]["boxes"]), (437, 240))

    def test_steps_by_hand(self):
        """Load, true, load, until, not, and, not with 4, 1, 1, 4, 4, 4 and 4 slots; two instructions of the Booleanizer, an
        output with four reports, and two columns."""
        program("c2po")
        found = self.told(ROOT / "examples" / "grant.c2po")
        work = [4 * (m + s + 2) for m, s in ((0, 4), (0, 1), (0, 1), (1, 4), (4, 4), (4, 4), (4, 4))]
        output = sum(work) + 2 * 2 + 2 + 2 * 4
        self.assertEqual((found["outputs"][0]["steps"], found["whole"]["steps"]), (output, output + 2 + 3))

    def test_text_with_names_and_shared_parts(self):
        program("c2po")
        spec = self.file("spec.c2po", SHARED)
        self.assertEqual(tool("budget", "--rate", 10, spec, env=NO_LIBRARY), (0, TEXT, ""))

    def test_a_program_has_the_figures_of_its_specification(self):
        program("c2po")
        spec, out = self.file("spec.c2po", SHARED), self.folder / "spec.obs"
        header = self.file("header.csv", "# free,y,q,x,more,p\n")
        subprocess.run([program("c2po"), "--header", str(header), "-o", str(out), str(spec)], check=True)
        self.assertEqual(self.told(spec)["outputs"], self.told(out)["outputs"])

    def test_a_program_of_version_1(self):
        program("c2po")
        spec, out = ROOT / "examples" / "grant.c2po", self.folder / "old.obs"
        subprocess.run([program("c2po"), "-o", str(out), str(spec)], check=True)
        raw = out.read_bytes()
        names = b"requestgrant"
        end = len(raw) - len(names) - 2 * 8 - len(b"granted")
        old = raw[:4] + b"\1" + raw[5:32] + raw[40:end] + b"granted"
        whole, less = self.told(spec)["whole"], self.told(self.file("old.obs", old))["whole"]
        self.assertLessEqual(less.pop("bytes", 0), whole.pop("bytes", 0))
        self.assertEqual(whole, less)

    def test_a_specification_without_outputs(self):
        program("c2po")
        self.assertEqual(self.told(self.file("none.c2po", ""))["whole"]["steps"], 3)


class Limits(Case):
    def setUp(self):
        super().setUp()
        program("c2po")
        self.spec = ROOT / "examples" / "grant.c2po"

    def over(self, *words):
        status, _, errors = tool("budget", *words, self.spec)
        return status, errors

    def test_each_limit(self):
        self.assertEqual(self.over("--max-slots", 22, "--max-steps", 215, "--max-reports", 4, "--max-delay", 3), (0, ""))
        self.assertEqual(self.over("--max-slots", 21), (1, "budget: 22 slots and boxes, above 21\n"))
        self.assertEqual(self.over("--max-reports", 3), (1, "budget: 4 reports in one row, above 3\n"))
        self.assertEqual(self.over("--max-steps", 214), (1, "budget: 215 steps in one row, above 214\n"))
        self.assertEqual(self.over("--max-delay", 2), (1, "budget: granted: a delay of 3 rows, above 2\n"))

    def test_delay_in_seconds(self):
        self.assertEqual(self.over("--rate", 10, "--max-delay", "0.3s"), (0, ""))
        self.assertEqual(self.over("--rate", 10, "--max-delay", "0.29s")[0], 1)
        status, errors = self.over("--max-delay", "0.3s")
        self.assertEqual(status, 2)
        self.one_line(errors)

    def test_what_cannot_be_read(self):
        program("c2po")
        texts = {"fault.c2po": "INPUT p: bool;\nFTSPEC f: p &&;\n", "no.obs": b"MLTL\2\0\0\0", "rows.csv": "1,0\n"}
        for name, text in texts.items():
            status, out, errors = tool("budget", self.file(name, text))
            self.assertEqual((status, out), (2, ""), name)
            self.one_line(errors)
        self.one_line(tool("budget", self.folder / "nowhere")[2])


class Bytes(Case):
    """What the library returns; where it isn't there, bytes are left out."""

    def setUp(self):
        super().setUp()
        program("c2po")
        self.spec = ROOT / "examples" / "grant.c2po"

    def asked(self):
        """The number that the library returns for the program of the first example."""
        raw = (ROOT / "examples" / "embed" / "grant.bin").read_bytes()
        number, fault = ctypes.c_uint64(), ctypes.create_string_buffer(112)
        self.assertEqual(ctypes.CDLL(library()).r2u2_bytes(raw, ctypes.c_size_t(len(raw)), ctypes.byref(number), fault), 0)
        return number.value

    def test_what_the_library_returns(self):
        found = self.asked()
        self.assertEqual(json.loads(tool("budget", "--json", self.spec)[1])["whole"]["bytes"], found)
        self.assertIn(f"\n{found} bytes\n", tool("budget", self.spec)[1])

    def check(self, spec):
        """Of a specification the library returns the bytes, steps, reports and delays that are printed."""
        program_file = self.folder / "spec.obs"
        subprocess.run([program("c2po"), "-o", str(program_file), str(spec)], check=True)
        raw, found = program_file.read_bytes(), json.loads(tool("budget", "--json", spec)[1])
        with mock.patch.dict(os.environ, R2U2_LIBRARY=library()), r2u2.Monitor(raw) as monitor:
            asked = r2u2.bytes_of(raw), monitor.steps, monitor.most_reports
            delays = list(zip(monitor.names, monitor.delays))
        self.assertEqual(tuple(found["whole"][key] for key in ("bytes", "steps", "reports")), asked)
        self.assertEqual([(it["name"], it["delay"]) for it in found["outputs"]], delays)

    def test_what_the_library_returns_of_each_example(self):
        library()
        for spec in sorted((ROOT / "examples").glob("**/*.c2po")):
            with self.subTest(spec=spec.name):
                self.check(spec)

    def test_what_the_library_returns_of_random_specifications(self):
        library()
        for seed in range(SPECS):
            with self.subTest(seed=seed):
                self.check(self.file("spec.c2po", random_specs.spec(random.Random(seed))))

    def test_a_limit(self):
        found = self.asked()
        self.assertEqual(tool("budget", "--max-bytes", found, self.spec)[::2], (0, ""))
        told = (1, f"budget: {found} bytes, above {found - 1}\n")
        self.assertEqual(tool("budget", "--max-bytes", found - 1, self.spec)[::2], told)

    def test_no_library(self):
        status, out, errors = tool("budget", "--json", self.spec, env=NO_LIBRARY)
        self.assertEqual((status, errors), (0, ""))
        self.assertNotIn("bytes", json.loads(out)["whole"])
        status, out, errors = tool("budget", "--max-bytes", 9999, self.spec, env=NO_LIBRARY)
        self.assertEqual((status, out), (2, ""))
        self.one_line(errors)
        self.assertIn("make python", errors)

    def test_a_file_that_is_no_library(self):
        broken = {"R2U2_LIBRARY": str(self.file("broken.so", "no object"))}
        status, out, errors = tool("budget", self.spec, env=broken)
        self.assertEqual((status, out), (2, ""))
        self.one_line(errors)


class Words(Case):
    def test_numbers(self):
        for option in ("--top", "--max-slots", "--max-steps", "--max-bytes"):
            for number in ("-1", "0.5", "x", "\N{SUPERSCRIPT TWO}"):
                told = f"budget: argument {option}: {number} isn't a whole number from 0 on (see --help)\n"
                self.assertEqual(tool("budget", f"{option}={number}", "no.c2po"), (2, "", told))
