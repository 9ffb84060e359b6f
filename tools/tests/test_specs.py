"""The reading of specifications and of compiled programs."""

from support import ROOT, Case, program, shell

from r2u2tools.common import specs
from r2u2tools.common.cli import ToolError

TEXT = """-- a comment; with a sign
STRUCT Pair: { a: bool; b: int; };
INPUT p, q: bool; x: int;
DEFINE
  both := p && q; pair := Pair(p, x);
FTSPEC
  first: p -> F[0,3] q; -- F: not this
  x > 2;
PTSPEC last: p => O[1,2] q;
INPUT late: bool;
FTSPEC foreach(y: {p, q})(y);
"""


class Specs(Case):
    def test_names(self):
        spec = specs.read_spec(self.file("spec", TEXT))
        self.assertEqual([out.name for out in spec.outputs], ["first", "1", "last", "3"])
        self.assertEqual([out.section for out in spec.outputs], ["FTSPEC", "FTSPEC", "PTSPEC", "FTSPEC"])
        self.assertEqual(
            [(it.name, it.kind, it.column) for it in spec.signals],
            [("p", "bool", 0), ("q", "bool", 1), ("x", "int", 2), ("late", "bool", 3)],
        )

    def test_examples(self):
        found = {path.stem: specs.read_spec(path) for path in ROOT.glob("examples/**/*.c2po")}
        self.assertEqual([out.name for out in found["valves"].outputs], ["filling", "shut"])
        self.assertTrue(all(spec.outputs and spec.signals for spec in found.values()))

    def test_faults(self):
        for text, said in [("INPUT p: bool;\nFTSPEC p & p;", "line 2: bad character"), ("p;", "line 1: no section")]:
            path = self.file("spec", text)
            with self.assertRaises(ToolError) as caught:
                specs.read_spec(path)
            self.assertIn(said, str(caught.exception))

    def test_a_program(self):
        path = self.folder / "grant.obs"
        status, _, errors = shell(f'{program("c2po")} -o "$OUT" "$SPEC"', OUT=path, SPEC=ROOT / "examples/grant.c2po")
        self.assertEqual((status, errors), (0, ""))
        spec = specs.read_spec(path)
        self.assertEqual([(it.name, it.kind, it.column) for it in spec.signals], [("request", "bool", 0), ("grant", "bool", 1)])
        self.assertEqual([(out.name, out.section) for out in spec.outputs], [("granted", "FTSPEC")])

    def test_a_cut_program(self):
        with self.assertRaises(ToolError):
            specs.read_spec(self.file("cut", b"MLTL\x02\x00\x00\x00\x01"))
