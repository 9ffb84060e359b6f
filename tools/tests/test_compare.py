"""tools/compare: where two versions of a specification differ."""

import random
import re

import random_specs
from support import ROOT, Case, program, tool
from r2u2tools.common.traces import Runs
from r2u2tools.compare import random_traces
from r2u2tools.compare.differences import first_difference

GRANT = ROOT / "examples/grant.c2po"
ROWS = "# request,grant\n0,0\n0,0\n1,0\n0,0\n0,0\n0,0\n0,1\n0,0\n0,0\n"


def runs(words):
    found = Runs()
    for time, word in enumerate(words):
        found.add(time, word)
    return found


class Differences(Case):
    def test_the_first_difference(self):
        dice = random.Random(1)
        for _ in range(300):
            one, other = ("".join(dice.choice("TTTF") for _ in range(dice.randint(0, 12))) for _ in range(2))
            at = next((k for k, pair in enumerate(zip(one, other)) if pair[0] != pair[1]), None)
            end = min(len(one), len(other)) if at is None else at
            words = None if at is None else (one[at], other[at])
            self.assertEqual(first_difference(runs(one), runs(other)), (end, words), (one, other))

    def test_random_traces(self):
        columns = [random_traces.Column("p", (0, 1)), random_traces.Column("x", (-1, 4, 5))]
        text = random_traces.trace(columns, 50, 3)
        self.assertEqual(text, random_traces.trace(columns, 50, 3))
        self.assertNotEqual(text, random_traces.trace(columns, 50, 4))
        self.assertRegex(text, r"^#p,x\n(?:[01],(?:-1|4|5)\n){50}$")


class Compare(Case):
    def setUp(self):
        super().setUp()
        program("r2u2"), program("c2po")
        self.slower = self.file("slower.c2po", GRANT.read_text().replace("[0,3]", "[0,4]"))
        self.rows = self.file("rows.csv", ROWS)

    def compared(self, *words):
        status, out, errors = tool("compare", *words)
        self.assertEqual(errors, "")
        return status, out

    def test_a_log_in_which_an_output_parts(self):
        status, out = self.compared("--random", "0", GRANT, self.slower, self.rows)
        lines = out.splitlines()
        self.assertEqual(status, 1)
        self.assertEqual(lines[:3], [
            f"granted: F in OLD, T in NEW at row 2 of {self.rows}",
            "  old: granted is F at 2: request holds at row 2; grant is false at rows 2, 3, 4 and 5",
            "  new: granted is T at 2: grant holds at row 6",
        ])
        self.assertRegex(out, r"\ncost +old +new +change\n")
        self.assertRegex(out, r"\ndelay +3 +4 +\+1\n")

    def test_a_random_trace_can_be_kept_and_tried_again(self):
        status, out = self.compared("--keep", self.folder, GRANT, self.slower)
        found = re.match(rf"granted: F in OLD, T in NEW at row (\d+) of ({re.escape(str(self.folder))}/random\d+\.csv)\n", out)
        self.assertEqual((status, bool(found)), (1, True), out)
        again = self.compared("--random", "0", GRANT, self.slower, found[2])[1]
        self.assertEqual(again.splitlines()[0], out.splitlines()[0])

    def test_equal_versions(self):
        other = self.file("other.c2po", GRANT.read_text().replace("->", " ->  -- the same\n"))
        status, out = self.compared("--random", "3", "--rows", "40", GRANT, other, self.rows)
        self.assertEqual((status, out.splitlines()[0]), (0, "granted: no difference in 124 verdicts"))

    def test_outputs_of_one_version_alone(self):
        other = self.file("other.c2po", GRANT.read_text() + "FTSPEC calm: !request;\n")
        status, out = self.compared("--random", "1", GRANT, other)
        self.assertEqual((status, out.splitlines()[1]), (1, "calm: in NEW alone"))
        self.assertIn("calm: in OLD alone", self.compared("--random", "1", other, GRANT)[1])

    def test_markdown(self):
        out = self.compared("--markdown", GRANT, self.slower, self.rows)[1]
        self.assertIn(f"| `granted` | F in OLD, T in NEW at row 2 of {self.rows} |\n", out)
        self.assertIn("- old: `granted is F at 2: request holds at row 2; ", out)
        self.assertIn("| delay | 3 | 4 | +1 |", out)

    def test_a_log_that_is_read_in_two_ways(self):
        other = self.file("other.c2po", GRANT.read_text().replace("request, grant", "grant, request"))
        rows = self.file("bare.csv", ROWS.partition("\n")[2])
        self.assertIn(f"\n{rows} has no header, and the versions declare", self.compared(GRANT, other, rows)[1])
        self.assertNotIn("no header", self.compared(GRANT, other, self.rows)[1])

    def test_stamps(self):
        stamped = self.file("stamped.csv", "# request,grant\n@0,1,0\n@4,0,1\n@9,0,0\n")
        status, out = self.compared("--timed", "--random", "0", GRANT, self.slower, stamped)
        self.assertEqual((status, out.splitlines()[0]), (1, f"granted: F in OLD, T in NEW at time 0 of {stamped}"))

    def test_random_specifications(self):
        """What parts is what r2u2 prints otherwise for both."""
        for seed in range(8):
            dice = random.Random(seed)
            old, new = (self.file(f"{name}.c2po", random_specs.spec(dice)) for name in ("old", "new"))
            status, out = self.compared("--random", "2", "--rows", "30", "--keep", self.folder, old, new)
            found = re.match(r"f: (\w+) in OLD, (\w+) in NEW at row (\d+) of (.*)\n", out)
            self.assertEqual(status, 1 if found else 0, out)
            for path, word in ((old, found[1]), (new, found[2])) if found else ():
                lines = tool("why", path, found[4], f"f:{found[3]}")[1]
                self.assertRegex(lines, f"^f is {word} at {found[3]}: ")

    def test_faults(self):
        bad = self.file("bad.c2po", "INPUT p: bool;\nFTSPEC f: p &&;\n")
        for words in (
            (GRANT,), (GRANT, bad), (GRANT, self.folder / "nothing"), (GRANT, GRANT, self.folder / "nothing.csv"),
            (GRANT, GRANT, self.file("short.csv", "1\n")), (GRANT, "-"), ("--keep", self.folder / "no", GRANT, GRANT),
        ):
            status, _, errors = tool("compare", *words)
            self.assertEqual(status, 2, words)
            self.one_line(errors)
