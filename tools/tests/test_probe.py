"""tools/probe: what about requirements some logs would notice."""

import json
import subprocess

from support import ROOT, Case, program, tool
from r2u2tools.common.specs import read_spec
from r2u2tools.probe.mutants import mutants
from r2u2tools.probe.requirements import Source

MISSIONS = ROOT / "examples/missions"
LANDER = """INPUT alt, vz: int; gear, abort: bool;
DEFINE low := alt <= 3000;
FTSPEC sink: low -> vz >= -400;
  gear_down: low -> F[0,3] gear;
  spare: low -> vz >= -400 || alt > 3000;
  aborted: abort => G[0,2] !gear;
"""
ROWS = "# alt,vz,gear,abort\n5000,-900,0,0\n4000,-700,0,0\n3000,-350,0,0\n2000,-300,1,0\n1000,-300,1,0\n500,-200,1,0\n"


class Mutants(Case):
    def changes(self, text):
        source = Source(read_spec(self.file("spec.c2po", text)))
        found = source.requirements()[0]
        return [(it.kind, it.old, it.new, source.with_edit(found, it.edit, "0")) for it in mutants(source, found)]

    def test_bounds(self):
        changes = self.changes("INPUT p: bool;\nFTSPEC f: F[0,2] G[3] p;\n")
        told = {(old, new) for kind, old, new, _ in changes if kind == "bound"}
        self.assertEqual(told, {
            ("F[0,2]", "F[1,2]"), ("F[0,2]", "F[0,1]"), ("F[0,2]", "F[0,3]"), ("G[3]", "G[2]"), ("G[3]", "G[4]"),
        })

    def test_constants_counts_and_operators(self):
        changes = self.changes("INPUT p, q: bool; x: int;\nFTSPEC f: foratleast(m: {p, q}, 1)(m && x < 5) -> !p;\n")
        told = {(kind, old, new) for kind, old, new, _ in changes}
        self.assertEqual(told, {
            ("count", "1", "0"), ("count", "1", "2"), ("constant", "x < 5", "x < 4"), ("constant", "x < 5", "x < 6"),
            ("operator", "&&", "||"), ("operator", "x < 5", "x <= 5"), ("operator", "->", "<->"), ("operator", "!", "nothing"),
        })

    def test_a_comparison_is_shown_whole(self):
        text = (
            "STRUCT S: { a: int; on: bool; };\nINPUT x, y: int;\nDEFINE s := S(x, y > 2 * x + 3);\n"
            "FTSPEC f: s.a + 2 < y * -4 && (x-7) == 0 && s.on && F[0,1] (x != 1);\n"
        )
        told = {(kind, old, new) for kind, old, new, _ in self.changes(text)}
        for one in (
            ("constant", "s.a + 2 < y * -4", "s.a + 1 < y * -4"), ("constant", "s.a + 2 < y * -4", "s.a + 2 < y * -5"),
            ("operator", "s.a + 2 < y * -4", "s.a + 2 <= y * -4"), ("constant", "(x-7) == 0", "(x-8) == 0"),
            ("constant", "y > 2 * x + 3", "y > 2 * x + 4"), ("bound", "F[0,1]", "F[0,2]"), ("operator", "x != 1", "x == 1"),
        ):
            self.assertIn(one, told)

    def test_definitions_are_changed_for_one_requirement(self):
        text = "INPUT x: int;\nDEFINE limit := 5; high := x > limit;\nFTSPEC f: high;\n"
        edits = {edit for kind, _, _, edit in self.changes(text) if kind == "constant"}
        self.assertIn(("DEFINE m_0_1 := 6; DEFINE m_0_2 := x > m_0_1;", "m_0_2"), edits)

    def test_each_change_compiles(self):
        program("c2po")
        for spec in sorted(MISSIONS.glob("*.c2po")):
            source = Source(read_spec(spec))
            lines = [source.head()]
            for number, requirement in enumerate(source.requirements()[:4]):
                for k, it in enumerate(mutants(source, requirement)):
                    definitions, body = source.with_edit(requirement, it.edit, f"{number}_{k}")
                    lines.append(f"{definitions} {requirement.section} {body};")
            path = self.file("all.c2po", "\n".join(lines) + "\n")
            ran = subprocess.run([program("c2po"), "-o", str(self.folder / "out.obs"), str(path)], stderr=subprocess.PIPE)
            self.assertEqual((ran.returncode, ran.stderr), (0, b""), spec)


class Probe(Case):
    def setUp(self):
        super().setUp()
        program("r2u2"), program("c2po")
        self.spec, self.rows = self.file("lander.c2po", LANDER), self.file("rows.csv", ROWS)

    def probed(self, *words):
        status, out, errors = tool("probe", "--json", *words)
        self.assertEqual((status, errors), (0, ""))
        return {it["name"]: it for it in json.loads(out)["requirements"]}

    def test_findings(self):
        found = self.probed(self.spec, self.rows)
        sink = found["sink"]
        self.assertEqual((sink["verdicts"], sink["broken"], sink["tried"]), (6, 0, True))
        limits = {(it["text"], it["holds"], it["fails"]) for it in sink["margins"]}
        self.assertEqual(limits, {("vz >= -400", -350, -349), ("alt <= 3000", 3999, 4000)})
        self.assertEqual({(it["old"], it["new"]) for it in sink["unnoticed"] if it["kind"] == "constant"}, {
            ("vz >= -400", "vz >= -399"), ("vz >= -400", "vz >= -401"), ("alt <= 3000", "alt <= 2999"), ("alt <= 3000", "alt <= 3001"),
        })
        self.assertEqual([it["text"] for it in found["spare"]["unused"]], ["alt > 3000", "alt <= 3000"])
        self.assertEqual([it["holds"] for it in found["gear_down"]["margins"] if it["text"] == "F[0,3]"], [1])
        self.assertIs(found["aborted"]["tried"], False)

    def test_parts_of_structs_that_a_requirement_does_not_read(self):
        """Changes there aren't changes of the requirement: neither counted, nor printed as unnoticed or unused."""
        spec = self.file("structs.c2po", (
            "STRUCT Heater: { hot: bool; cold: bool; };\nINPUT t, u: int;\nDEFINE icy := u < 5; one := Heater(t > 90, icy);\n"
            "  both := {one, Heater(u > 80, t < 6)};\nFTSPEC f: !one.hot; g: foreach(h: both)(!h.cold); whole: !one.hot && !one.cold;\n"
        ))
        rows = self.file("heat.csv", "# t,u\n20,20\n90,20\n91,20\n20,4\n")
        found = self.probed(spec, rows)
        self.assertEqual((found["f"]["mutants"], found["g"]["mutants"]), (2 + 1, 4 + 1 + 1))
        told = {it["old"] for name in "fg" for it in found[name]["unnoticed"]}
        self.assertFalse(told & {"u > 80"} or {it["old"] for it in found["f"]["unnoticed"]} & {"u < 5", "t < 6"}, told)
        self.assertEqual([it["text"] for it in found["f"]["unused"]], [])
        self.assertIn("u < 5", {it["old"] for it in found["whole"]["unnoticed"]})

    def test_margins_are_those_of_r2u2(self):
        """With the last value that holds no verdict is false; with the first one past it, one is."""
        for holds, fails in ((350, 349),):
            for value, false in ((holds, False), (fails, True)):
                path = self.file("other.c2po", LANDER.replace("-400;", f"-{value};", 1))
                out = subprocess.run([program("r2u2"), "--source", str(path), str(self.rows)], stdout=subprocess.PIPE).stdout
                self.assertEqual(any(line.startswith(b"sink:") and line.endswith(b",F") for line in out.splitlines()), false)

    def test_text(self):
        status, out, errors = tool("probe", self.spec, self.rows)
        self.assertEqual((status, errors), (0, ""))
        self.assertRegex(out, r"^requirement +verdicts +false +tried +noticed +unused parts +margins\nsink +6 +0 +yes ")
        self.assertIn(f"\n  {self.spec}:3:28: vz >= -400: still holds with -350, not with -349\n", out)
        self.assertIn(f"\n  {self.spec}:5:31: never decides: alt > 3000\n", out)
        self.assertIn("\naborted\n  not tried: the left side never holds\n", out)

    def test_a_second_log_notices_more(self):
        more = self.file("more.csv", "# alt,vz,gear,abort\n3001,-401,0,1\n3000,-400,0,1\n3000,-400,0,0\n2999,-401,1,0\n" + "9,0,0,0\n" * 4)
        one, two = self.probed(self.spec, self.rows), self.probed(self.spec, self.rows, more)
        self.assertLess(one["sink"]["noticed"], two["sink"]["noticed"])
        self.assertTrue(two["aborted"]["tried"])
        self.assertEqual(two["sink"]["broken"], 1)

    def test_long_logs_beyond_their_head(self):
        rows = self.file("long.csv", "# alt,vz,gear,abort\n" + "5000,-900,0,0\n" * 3000 + "3000,-350,1,0\n")
        limits = self.probed(self.spec, rows)["sink"]["margins"]
        self.assertIn(("vz >= -400", -350), {(it["text"], it["holds"]) for it in limits})

    def test_missions(self):
        found = self.probed(MISSIONS / "power.c2po", MISSIONS / "power.csv")
        self.assertEqual([it["holds"] for it in found["reserve"]["margins"]], [280])
        self.assertTrue(all(it["noticed"] + len(it["unnoticed"]) == it["mutants"] for it in found.values()))

    def test_stamps(self):
        stamped = self.file("stamped.csv", "# alt,vz,gear,abort\n@0,5000,-900,0,0\n@5,3000,-350,0,0\n@7,3000,-300,1,0\n")
        self.assertEqual(self.probed("--timed", "--no-margins", self.spec, stamped)["sink"]["verdicts"], 8)

    def test_status(self):
        status, _, errors = tool("probe", "--no-margins", "--fail-untried", self.spec, self.rows)
        self.assertEqual((status, errors), (1, "probe: aborted wasn't tried\n"))
        status, _, errors = tool("probe", "--no-margins", "--least-noticed", "90", self.spec, self.rows)
        self.assertEqual(status, 1)
        self.assertRegex(errors, r"^probe: [0-9.]+ % of all changes are noticed, below 90 %\n$")
        self.assertEqual(tool("probe", "--no-margins", "--least-noticed", "1", self.spec, self.rows)[0], 0)

    def test_no_verdict(self):
        empty = self.file("empty.csv", "# alt,vz,gear,abort\n")
        found = tool("probe", "--fail-untried", self.spec, empty)
        self.assertEqual((found[0], found[2].count("wasn't tried")), (1, 4))
        self.assertIn("no verdict: the logs are too short", found[1])

    def test_faults(self):
        bad, out = self.file("bad.c2po", "INPUT p: bool;\nFTSPEC f: p &&;\n"), self.folder / "lander.obs"
        subprocess.run([program("c2po"), "-o", str(out), str(self.spec)], check=True)
        for words in (
            (self.spec,), (bad, self.rows), (out, self.rows), (self.folder / "nothing", self.rows), (self.spec, "-"),
            (self.spec, self.folder / "nothing"), (self.spec, self.file("short.csv", "1\n")), ("--least-noticed", "101", self.spec, self.rows),
        ):
            status, _, errors = tool("probe", *words)
            self.assertEqual(status, 2, words)
            self.one_line(errors)
