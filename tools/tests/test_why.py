"""tools/why: the cells that it names decide the verdict, and what it says of the examples."""

import random
import re
import subprocess
from concurrent.futures import ThreadPoolExecutor

import random_specs
from support import ROOT, Case, program, spent, tool
from r2u2tools.common.compiled import compiled
from r2u2tools.common.specs import read_spec
from r2u2tools.common.traces import read_trace
from r2u2tools.why.explanation import Explainer

SPECS, TIMES, CHANGES = 60, 2, 2
AHEAD = 25
EXAMPLES = ROOT / "examples"
GRANT = EXAMPLES / "grant.c2po", EXAMPLES / "grant.csv"


def verdicts(spec, trace):
    """The words of each output by time, as r2u2 prints them."""
    words = [program("r2u2"), "--source", str(spec), str(trace)]
    out = subprocess.run(words, stdout=subprocess.PIPE, check=True, encoding="ascii").stdout
    found = {}
    for line in out.splitlines():
        name, _, told = line.partition(":")
        time, _, word = told.partition(",")
        found.setdefault(name, {})[int(time)] = word
    return found


class Watched:
    """A specification over rows, in a separate folder."""

    def __init__(self, folder, text, signals, rows):
        self.folder, self.signals, self.rows = folder, signals, rows
        folder.mkdir()
        self.spec, self.trace = folder / "spec.c2po", folder / "rows.csv"
        self.spec.write_text(text)
        self.trace.write_text(random_specs.text_of(rows))
        self.made, self.told = compiled(self.spec, folder), verdicts(self.spec, self.trace)

    def reasons(self, name, time):
        explainer = Explainer(self.made, self.made.shown.output(name), self.folder)
        return explainer.explain(explainer.window(str(self.trace), time, False), time)

    def word(self, name, time):
        return self.told.get(name, {}).get(time)

    def row(self, dice):
        return [dice.randint(0, 1) if kind == "bool" else dice.randint(-3, 40) for kind in self.signals.values()]

    def other_words(self, dice, rows, name, time, kept):
        """The words over such rows with other fields in all cells but those kept, and rows after them that settle all."""
        found = set()
        for _ in range(CHANGES):
            changed = [self.row(dice) for _ in range(len(rows) + AHEAD)]
            for column, signal in enumerate(self.signals):
                for at, fields in enumerate(rows):
                    changed[at][column] = fields[column] if (signal, at) in kept else changed[at][column]
            other = self.folder / "other.csv"
            other.write_text(random_specs.text_of(changed))
            found.add(verdicts(self.spec, other).get(name, {}).get(time))
        return found


class Deciding(Case):
    """Over other cells the verdict stays; an open one depends on the cells that it waits for alone."""

    def check(self, watched, dice, name, time):
        """Checks one verdict; whether it was printed."""
        reasons = watched.reasons(name, time)
        what = (watched.spec.read_text(), watched.rows, name, time)
        self.assertEqual(reasons.word, watched.word(name, time), what)
        if reasons.word is not None:
            words = watched.other_words(dice, watched.rows, name, time, reasons.cells)
            self.assertEqual(words, {reasons.word}, what)
            return True
        self.assertTrue(all(at >= len(watched.rows) for _, at in reasons.cells), what)
        ahead = watched.rows + [watched.row(dice) for _ in range(AHEAD)]
        there = {(signal, at) for signal in watched.signals for at in range(len(watched.rows))}
        words = watched.other_words(dice, ahead, name, reasons.at, there | reasons.cells)
        self.assertEqual(len(words), 1, what)
        return False

    def check_seed(self, seed):
        dice = random.Random(seed)
        text, rows = random_specs.spec(dice), [random_specs.row(dice) for _ in range(dice.randint(1, 12))]
        watched = Watched(self.folder / str(seed), text, random_specs.SIGNALS, rows)
        times = dice.sample(range(len(rows)), min(TIMES, len(rows)))
        return [self.check(watched, dice, "f", time) for time in times]

    def check_pattern(self, spec):
        """Each verdict of a pattern over its own trace, those that are open too."""
        dice, given = random.Random(spec.name), read_spec(spec)
        trace = read_trace(spec.with_suffix(".csv"), given.signals)
        rows = [[int(column.at(time)) for column in trace.columns] for time in range(trace.times)]
        signals = {signal.name: signal.kind for signal in given.signals}
        watched = Watched(self.folder / spec.stem, spec.read_text(), signals, rows)
        return [self.check(watched, dice, told.name, time) for told in given.outputs for time in range(len(rows))]

    def test_random_specifications(self):
        program("r2u2"), program("c2po")
        with ThreadPoolExecutor() as pool:
            found = [told for each in pool.map(self.check_seed, range(SPECS)) for told in each]
        self.assertGreater(sum(found), SPECS)
        self.assertGreater(len(found) - sum(found), SPECS // 10)

    def test_all_patterns(self):
        program("r2u2"), program("c2po")
        specs = sorted((EXAMPLES / "patterns").glob("*.c2po"))
        with ThreadPoolExecutor() as pool:
            found = [told for each in pool.map(self.check_pattern, specs) for told in each]
        self.assertGreaterEqual(len(specs), 12)
        self.assertGreater(sum(found), 80)


class Spelled(Case):
    """A formula that is spelled with the operators of the language compiles to the same program."""

    def image(self, text):
        spec, out = self.file("spec.c2po", text), self.folder / "out.obs"
        subprocess.run([program("c2po"), "-o", str(out), str(spec)], check=True)
        return out.read_bytes()

    def test_random_specifications(self):
        program("c2po")
        for seed in range(60):
            text = random_specs.spec(random.Random(seed), simple=True)
            made = compiled(self.file("spec.c2po", text), self.folder)
            made.shown.called.clear()
            told = made.shown.outputs[0]
            formula = " => ".join(made.shown.text(ref) for ref in told.operands())
            again = f"{random_specs.INPUTS}{told.section} f: {formula};\n"
            self.assertEqual(self.image(text), self.image(again), (text, again))


class Sentences(Case):
    def setUp(self):
        super().setUp()
        program("r2u2"), program("c2po")

    def told(self, *words, give=""):
        status, out, errors = tool("why", *words, give=give)
        self.assertEqual((status, errors), (0, ""))
        return out.splitlines()

    def first(self, *words, give=""):
        return self.told(*words, give=give)[0]

    def pattern(self, name, verdict):
        return self.first(*(EXAMPLES / "patterns" / f"{name}.{end}" for end in ("c2po", "csv")), verdict)

    def test_a_request_that_is_not_granted(self):
        lines = [
            "granted is F at 2: request holds at row 2; grant is false at rows 2, 3, 4 and 5",
            "  request -> F[0,3] grant is false at time 2",
            "    request holds at row 2",
            "    F[0,3] grant is false at time 2",
            "      grant is false at rows 2, 3, 4 and 5",
        ]
        self.assertEqual(self.told(*GRANT, "granted:2"), lines)
        self.assertEqual(self.told(GRANT[0], "-", "granted:2", give=GRANT[1].read_text()), lines)

    def test_an_open_verdict(self):
        rows = self.file("rows.csv", "# request,grant\n" + "0,0\n" * 5 + "1,0\n")
        self.assertEqual(self.first(GRANT[0], rows, "granted:5"), "granted is open at 5: waits for grant in rows 6 to 8")
        past = "granted is open at 6: the trace ends with row 5"
        self.assertEqual(self.told(GRANT[0], rows, "granted:6"), [past])

    def test_a_line_that_waits_for_an_earlier_one(self):
        rows = self.file("rows.csv", "1,0\n0,0\n")
        line = "granted is open at 1: its line waits for that of time 0, which waits for grant in rows 2 and 3"
        self.assertEqual(self.first(GRANT[0], rows, "granted:1"), line)

    def test_a_contract(self):
        line = "sensor is invalid at 4: power holds at row 4; valid is false at rows 4, 5 and 6"
        self.assertEqual(self.pattern("assume_guarantee", "sensor:4"), line)
        self.assertEqual(self.pattern("assume_guarantee", "sensor:0"), "sensor is inactive at 0: power is false at row 0")

    def test_numbers(self):
        line = "settling is F at 6: step holds at row 6; error <= 2 is false at rows 7, 9 and 11 (3, 4 and 3)"
        self.assertEqual(self.pattern("settling", "settling:6"), line)

    def test_names_and_text_of_the_specification(self):
        text = "INPUT a, b: bool;\nDEFINE calm := G[0,1] !b;\nFTSPEC\n f: a -- first\n  -> calm;\n"
        spec, rows = self.file("spec.c2po", text), self.file("rows.csv", "1,0\n0,1\n")
        lines = self.told(spec, rows, "f:0")
        self.assertEqual(lines[1], "  a -> calm is false at time 0")
        self.assertIn("    calm is false at time 0", lines)

    def test_no_row_so_far_back(self):
        spec, rows = self.file("spec.c2po", "INPUT p: bool;\nPTSPEC o: O[2,3] p;\n"), self.file("rows.csv", "1\n1\n")
        lines = self.told(spec, rows, "o:1")
        self.assertEqual(lines[0], "o is F at 1: whatever the rows hold")
        self.assertEqual(lines[1], "  O[2,3] p is false at time 1: no row lies so far back")

    def test_stamps(self):
        line = "granted is F at 0: request holds at time 0; grant is false at times 0, 1, 2 and 3"
        self.assertEqual(self.first("--timed", GRANT[0], EXAMPLES / "stamped.csv", "granted:0"), line)

    def test_a_program_with_columns_of_its_own(self):
        out, header = self.folder / "grant.obs", self.file("header.csv", "#grant,free,request\n")
        subprocess.run([program("c2po"), "--header", str(header), "-o", str(out), str(GRANT[0])], check=True)
        rows = self.file("rows.csv", "0,9,0\n0,9,1\n0,9,0\n0,9,0\n0,9,0\n")
        line = "granted is F at 1: request holds at row 1; grant is false at rows 1, 2, 3 and 4"
        self.assertEqual(self.first(out, rows, "granted:1"), line)

    def test_a_program_of_version_1(self):
        out = self.folder / "grant.obs"
        subprocess.run([program("c2po"), "-o", str(out), str(GRANT[0])], check=True)
        raw = out.read_bytes()
        end = len(raw) - len(b"requestgrant") - 2 * 8 - len(b"granted")
        old = self.file("old.obs", raw[:4] + b"\1" + raw[5:32] + raw[40:end] + b"granted")
        self.assertRegex(self.first(old, GRANT[1], "granted:2"), r"granted is F at 2: \w+ holds at row 2; \w+ is false at rows 2, ")

    def test_a_long_window(self):
        text = "INPUT p, q: bool;\nFTSPEC f: G[0,20000] (p -> F[0,500] q);\n"
        rows = "".join(f"{int(k % 50 == 0)},{int(k % 100 == 99)}\n" for k in range(30000))
        line = self.first(self.file("spec.c2po", text), self.file("rows.csv", rows), "f:3000")
        self.assertRegex(line, "^f is T at 3000: .*more stretches")

    def over(self, text, rows, verdict, *words):
        """The lines that are printed for a specification over rows."""
        return self.told(*words, self.file("spec.c2po", text), self.file("rows.csv", rows), verdict)

    def test_counting(self):
        rows = self.file("rows.csv", "# h1,h2,h3,h4\n1,0,1,1\n")
        line = "at_most is F at 0: h4 holds at row 0; h3 holds at row 0; h1 holds at row 0"
        told = self.first(EXAMPLES / "patterns" / "at_most.c2po", rows, "at_most:0")
        self.assertEqual(sorted(told.partition(": ")[2].split("; ")), sorted(line.partition(": ")[2].split("; ")))
        text = "INPUT mode: int;\nFTSPEC f: foratleast(m: {0, 1}, 1)(mode == m);\n"
        self.assertEqual(self.over(text, "1\n", "f:0")[0], "f is T at 0: mode == 1 at row 0 (1)")
        self.assertEqual(self.over(text, "2\n", "f:0")[0][:9], "f is F at")

    def test_members_in_the_place_of_the_circuit_that_counts_them(self):
        text = "INPUT x, y, z: bool;\nFTSPEC f: G[0,2] foratmost(m: {x, y, F[0,1] z}, 1)(m); g: foratleast(m: {x, y, z}, 3)(m);\n"
        rows = "1,1,0\n1,1,1\n1,0,1\n"
        lines = [
            "    foratmost(m: {x, y, F[0,1] z}, 1)(m) is false at time 2: 2 of 3 hold: x, F[0,1] z; the quantifier takes at most 1",
            "      F[0,1] z holds at time 2",
            "        z holds at row 2",
            "      x holds at row 2",
        ]
        self.assertEqual(self.over(text, rows, "f:0")[2:], lines)
        line = "  foratleast(m: {x, y, z}, 3)(m) is false at time 0: 2 of 3 hold: x, y; the quantifier takes at least 3"
        self.assertEqual(self.over(text, rows, "g:0")[1], line)

    def test_a_program_too_large_to_show(self):
        members = ", ".join(f"O[{k},{k}] p" for k in range(30))
        text = f"INPUT p: bool;\nPTSPEC few: foratmost(k: {{{members}}}, 3)(k);\n"
        lines = self.over(text, "1\n" * 5, "few:4")
        self.assertTrue(lines[0].startswith("few is F at 4: p holds at rows "), lines[0])
        self.assertIn("foratmost(k: {..}, 3)(k) is false at time 4: 5 of 30 hold: O[0,0] p, O[1,1] p", lines[1])

    def test_an_open_verdict_names_no_signal_that_a_constant_makes_idle(self):
        text = "INPUT p, q: bool;\nFTSPEC f: p R[3,7] true; g: (p U[2,5] true) && (q || true);\n"
        self.assertEqual(self.over(text, "0,0\n0,0\n", "f:1")[0], "f is open at 1: waits for row 8")
        self.assertEqual(self.over(text, "1,0\n1,0\n", "g:0")[0], "g is open at 0: waits for row 2")

    def test_no_time_to_leave_cells_out(self):
        text = "INPUT p, q: bool;\nFTSPEC f: (p -> q) && (p || q);\n"
        self.assertEqual(self.over(text, "1,1\n", "f:0")[0], "f is T at 0: q holds at row 0")
        last = "after 0 seconds: not all of these cells may be needed; --seconds 60 looks for longer"
        self.assertEqual(self.over(text, "1,1\n", "f:0", "--seconds", 0)[-1], last)

    def test_a_conjunction_with_true(self):
        text = "INPUT p, q: bool;\nFTSPEC f: p && (q && true);\n"
        self.assertEqual(self.over(text, "1,1\n", "f:0")[0], "f is T at 0: p holds at row 0; q holds at row 0")

    def test_a_contract_whose_left_side_recurs(self):
        text = "INPUT on, cmd: bool;\nPTSPEC heater: on => on S[0,5] cmd;\n"
        line = "heater is verified at 2: on holds at rows 1 and 2; cmd holds at row 0"
        self.assertEqual(self.over(text, "1,1\n1,0\n1,0\n", "heater:2")[0], line)

    def test_a_header_with_quotes(self):
        text = "INPUT x: int; z: bool;\nFTSPEC f: z -> x < 9;\n"
        line = "f is F at 0: z holds at row 0; x < 9 is false at row 0 (50)"
        self.assertEqual(self.over(text, '#"speed, m/s",x,z\n7,50,1\n', "f:0")[0], line)

    def test_an_inner_formula_that_waits_for_an_earlier_verdict(self):
        text = "INPUT a, b: bool;\nFTSPEC f: F[1,1] (b -> F[0,3] a);\n"
        line = (
            "f is open at 0: waits for b -> F[0,3] a at time 1, "
            "whose verdict of time 0 comes first and waits for a in rows 2 and 3"
        )
        self.assertEqual(self.over(text, "0,1\n0,0\n", "f:0")[0], line)

    def test_cells_that_windows_share(self):
        text = "INPUT p: bool;\nFTSPEC f: F[0,1] p && F[1,2] p; g: G[0,100] F[0,10] p;\n"
        self.assertEqual(self.over(text, "1\n" * 120, "f:0")[0], "f is T at 0: p holds at row 1")
        told = self.over(text, "1\n" * 120, "g:0", "--html", self.folder / "page.html")
        self.assertRegex(told[0], "g is T at 0: p holds at rows ")
        self.assertEqual(len(re.findall(r'class="[^"]*marked"', (self.folder / "page.html").read_text())), 10)

    def test_what_no_part_shows_alone(self):
        text = "INPUT p, q: bool;\nFTSPEC f: (p -> q) && (p || q); g: p || !p;\n"
        self.assertEqual(self.over(text, "1,0\n", "f:0")[0], "f is F at 0: q is false at row 0")
        lines = self.over(text, "1,0\n", "g:0")
        self.assertEqual(lines[0], "g is T at 0: whatever the rows hold")
        self.assertIn("p holds at row 0; were it otherwise, the verdict would be the same", "\n".join(lines))

    def test_the_words_of_the_author(self):
        text = (
            "INPUT alt, vz: int; gear: bool;\nDEFINE low := alt <= 3000;\n"
            "FTSPEC sink: !(vz < -400 && alt < 500); safe: G[0,2] (low -> vz >= -100 || gear);\n"
        )
        rows = "400,-557,0\n" + "2000,-120,0\n" * 3
        self.assertEqual(self.over(text, rows, "sink:0"), [
            "sink is F at 0: vz < -400 at row 0 (-557); alt < 500 at row 0 (400)",
            "  !(vz < -400 && alt < 500) is false at time 0",
            "    vz < -400 at row 0 (-557)",
            "    alt < 500 at row 0 (400)",
        ])
        lines = "\n".join(self.over(text, rows, "safe:0"))
        self.assertIn("vz >= -100 is false at row", lines)
        self.assertIn("  G[0,2] (low -> vz >= -100 || gear) is false at time 0", lines)

    def test_the_words_of_the_author_within_quantifiers(self):
        """A comparison with a member keeps its sides and its denials, whatever a set or a struct holds."""
        text = (
            "STRUCT Heater: { on: bool; temp: int; };\nINPUT a: bool; alt, t: int;\n"
            "DEFINE first := Heater(a, t); second := Heater(3 < t, t + 1); heaters := {first, second}; limits := {10, 0 - 3};\n"
            "FTSPEC below: foreach(m: {1, 2})(m < alt); least: foratleast(m: {1, 2}, 1)(!(m >= alt));\n"
            "  warm: foreach(h: heaters)(h.on -> 5 < h.temp); some: forsome(m: limits)(m <= t - m);\n"
            "  two: foreach(m: {1, -2})(foreach(n: {m, 7})(n < alt-m)); on: foreach(h: {first, Heater(7 > t, 2)})(h.on);\n"
        )
        for verdict, told in (
            ("below", "F at 0: 1 < alt is false at row 0 (1)"),
            ("least", "F at 0: !(2 >= alt) is false at row 0 (1); !(1 >= alt) is false at row 0 (1)"),
            ("warm", "F at 0: 3 < t at row 0 (4); 5 < second.temp is false at row 0 (t is 4)"),
            ("some", "T at 0: (0 - 3) <= t - (0 - 3) at row 0 (t is 4)"),
            ("two", "F at 0: 1 < alt-1 is false at row 0 (alt is 1)"),
            ("on", "T at 0: a holds at row 0; 7 > t at row 0 (4)"),
        ):
            self.assertEqual(self.over(text, "1,1,4\n", f"{verdict}:0")[0], f"{verdict} is {told}")
        self.assertIn("-2 < alt-(-2) at row 0", "\n".join(self.over(text, "1,9,4\n", "two:0")))

    def test_a_field_of_a_struct_made_in_place(self):
        """A picked field of a member that is made in the set is what it is made with."""
        text = (
            "STRUCT Heater: { on, off: bool; temp: int; };\nINPUT a, b: bool; t, u: int;\n"
            "FTSPEC cold: foreach(h: {Heater(a, b, t), Heater(b, a, (t + u) * 2)})(h.on && !h.off -> h.temp < 9);\n"
        )
        for rows, told in (
            ("1,0,9,0\n", "a holds at row 0; b is false at row 0; t < 9 is false at row 0 (9)"),
            ("0,1,4,1\n", "b holds at row 0; a is false at row 0; ((t + u) * 2) < 9 is false at row 0 (t is 4; u is 1)"),
        ):
            self.assertEqual(self.over(text, rows, "cold:0")[0], f"cold is F at 0: {told}")

    def test_ranges_of_values(self):
        text = "INPUT x: int;\nFTSPEC f: G[0,9] (x > 3);\n"
        rows = "".join(f"{4 + k % 7}\n" for k in range(12))
        self.assertEqual(self.over(text, rows, "f:0")[0], "f is T at 0: x > 3 at rows 0 to 9 (4 to 10)")

    def test_a_long_formula_keeps_its_outer_operator(self):
        names = [f"a_signal_with_a_long_name_{k}" for k in range(6)]
        body = f"{' && '.join(names[:4])} || {names[4]} && {names[5]}"
        text = f"INPUT {', '.join(names)}: bool;\nFTSPEC f: {body};\n"
        line = self.over(text, "0,1,1,1,1,1\n", "f:0")[1]
        self.assertRegex(line, r"^  \S.* \|\| .* holds at time 0$")
        self.assertLess(len(line), 100)

    def test_a_cell_of_two_windows_is_named_once(self):
        spec = self.file("spec.c2po", "INPUT c, m: bool;\nDEFINE still := !m;\nFTSPEC f: c -> (m || F[0,3] m);\n")
        rows = self.file("rows.csv", "# c,m\n1,0\n0,0\n0,0\n0,0\n")
        self.assertEqual(self.first(spec, rows, "f:0"), "f is F at 0: c holds at row 0; still holds at rows 0, 1, 2 and 3")

    def test_a_pasted_line(self):
        self.assertEqual(self.first(*GRANT, "granted:2,F"), self.first(*GRANT, "granted:2"))
        status, out, errors = tool("why", *GRANT, "granted:2,T")
        self.assertEqual((status, out.splitlines()[0]), (0, self.first(*GRANT, "granted:2")))
        self.assertEqual(errors, "why: the line has T, and over this trace the verdict is F\n")

    def test_the_rest_of_a_trace(self):
        """Its first row has the number that is given; the reasons are those over the whole trace."""
        rows = ["1,0\n", *["0,0\n"] * 40, "1,0\n", *["0,0\n"] * 9]
        whole, rest = self.file("whole.csv", "".join(rows)), self.file("rest.csv", "".join(rows[30:]))
        self.assertEqual(self.told("--begin", "30", GRANT[0], rest, "granted:41"), self.told(GRANT[0], whole, "granted:41"))
        past = self.file("past.c2po", "INPUT request, grant: bool;\nPTSPEC p: O[2,8] request;\n")
        self.assertEqual(self.told("--begin", "30", past, rest, "p:40"), self.told(past, whole, "p:40"))
        stamps = self.file("stamps.csv", "@40,0,0\n@41,1,0\n@60,0,0\n")
        line = "granted is F at 41: request holds at time 41; grant is false at times 41, 42, 43 and 44"
        self.assertEqual(self.first("--timed", "--begin", "40", GRANT[0], stamps, "granted:41"), line)
        status, _, errors = tool("why", "--begin", "30", past, rest, "p:31")
        self.assertEqual(status, 2)
        self.assertIn("the verdict needs the rows from 23 on, and the first is 30", errors)
        self.assertEqual(tool("why", "--timed", "--begin", "30", GRANT[0], stamps, "granted:41")[0], 2)

    def test_a_fault_in_a_row_that_counts(self):
        rows = self.file("rows.csv", "# request,grant\n" + "0,0\n" * 50 + "x,0\n")
        status, _, errors = tool("why", GRANT[0], rows, "granted:48")
        self.assertEqual(status, 2)
        self.assertIn("line 52: not a whole number in column 1", errors)

    def test_a_million_rows(self):
        rows = self.file("rows.csv", "# request,grant\n" + "0,0\n" * 999_990 + "1,0\n" * 10)
        for time, word in ((999_995, "F"), (2, "T")):
            before = spent()
            self.assertRegex(self.first(GRANT[0], rows, f"granted:{time}"), f"granted is {word} at {time}: ")
            self.assertLess(spent() - before, 6)

    def test_a_page(self):
        page = self.folder / "why.html"
        self.told("--html", page, *GRANT, "granted:2")
        text = page.read_text()
        self.assertEqual(len(re.findall(r'class="[^"]*marked"', text)), 5)
        self.assertIn("grant is false at rows 2, 3, 4 and 5", text)

    def test_a_trace_without_rows(self):
        empty = self.file("rows.csv", "")
        self.assertEqual(self.told(GRANT[0], empty, "granted:0"), ["granted is open at 0: the trace has no rows"])

    def test_a_deep_formula(self):
        lines = [f"d{k} := F[0,1] (d{k - 1} && q);" if k % 2 else f"d{k} := !d{k - 1} || G[1,2] q;" for k in range(1, 1000)]
        text = "INPUT p, q: bool;\nDEFINE d0 := p;\n" + "\n".join(lines) + "\nFTSPEC f: d999;\n"
        rows = "".join(f"{k % 2},{int(k % 7 > 0)}\n" for k in range(3000))
        line = self.first(self.file("spec.c2po", text), self.file("rows.csv", rows), "f:100")
        self.assertRegex(line, "^f is [TF] at 100: [pq] ")

    def test_faults(self):
        nowhere = self.folder / "nowhere"
        bad = self.file("bad.c2po", "INPUT p: bool;\nFTSPEC f: p &&;\n")
        for words in (
            (*GRANT, "granted"),
            (*GRANT, "other:1"),
            (nowhere, GRANT[1], "granted:1"),
            (GRANT[0], nowhere, "granted:1"),
            (GRANT[0], self.folder, "granted:1"),
            (bad, GRANT[1], "f:1"),
            (GRANT[0], EXAMPLES / "stamped.csv", "granted:1"),
            ("--timed", *GRANT, "granted:1"),
            (GRANT[0], self.file("short.csv", "1,0\n1\n"), "granted:0"),
            (GRANT[0], self.file("other.csv", "# request\n1\n"), "granted:0"),
            ("--html", nowhere / "page.html", *GRANT, "granted:2"),
        ):
            status, _, errors = tool("why", *words)
            self.assertEqual(status, 2, words)
            self.one_line(errors)
        self.assertEqual(errors, f"why: cannot write {words[1]}: No such file or directory\n")
