"""check: places of faults, hints and notes, what is found after the first fault; layout."""

import json
import random
import subprocess

from hypothesis import given, settings
from hypothesis import strategies as st
from hypothesis_specs import HEAD
from random_specs import INPUTS, spec as random_spec
from support import ROOT, Case, program, tool
from r2u2tools.check import grammar, notes, report
from r2u2tools.check.faults import check
from r2u2tools.check.layout import laid_out
from r2u2tools.check.rewrites import rewritten
from r2u2tools.common.source import read
from r2u2tools.check.trace import check_trace

EXAMPLES = sorted((ROOT / "examples").glob("**/*.c2po"))
PRELUDE = "STRUCT Unit: { load: int; off: bool; };\nINPUT p, q: bool; x, y: int;\nDEFINE u := Unit(x, p);\n"
# What may stand between tokens.
GAPS = ("", " ", " ", "  ", "\t", "\n", "\n\n\n", "\r\n", "-- c\n", " -- c\n", "\n  --c  \n", "--c\r\n", "--c\n--d\n", " \n ")
# A line below the prelude, in which ^ marks the token at fault, and the message.
PLACES = [
    ("FTSPEC f: p && ^zz;", "unknown name 'zz'"),
    ("FTSPEC f: p && ^P;", "unknown name 'P' (did you mean 'p'?)"),
    ("FTSPEC f: u.^of;", "unknown field 'of' (did you mean 'off'?)"),
    ("FTSPEC f: x < 3 && x ^+ p > 2;", "wrong kind"),
    ("FTSPEC f: ^x;", "wrong kind"),
    ("FTSPEC f: p && ^F[3,2] q;", "bad interval"),
    ("FTSPEC f: p ^& q;", "bad character '&'"),
    ("FTSPEC f: p\n  && gr^öße;", "bad character 'ö'"),
    ("FTSPEC f: p ^\x01;", "bad character U+0001"),
    ("FTSPEC f: p ^and q;", "syntax (expected an operator or `;` before 'and')"),
    ("FTSPEC f: p\n  ^g: q;", "syntax (expected an operator or `;` before 'g'; is a ; missing?)"),
    ("FTSPEC f: p^", "syntax (expected an operator or `;` after 'p')"),
    ("FTSPEC f: F ^p;", "syntax (expected an interval, as `[0,3]` before 'p')"),
    ("FTSPEC f: foreach(v: {p, q}^, 2)(v);", "syntax (expected an operator or `)` before ',')"),
    ("INPUT z: ^float;", "unknown name 'float' (did you mean 'int'?)"),
    ("STRUCT V: { a: int; b: set<^Unot>; };", "unknown name 'Unot' (did you mean 'Unit'?)"),
    ("DEFINE b := ^a; a := p;", "unknown name 'a' (declared later, in line 4)"),
    ("DEFINE b := p && ^b;", "unknown name 'b' (declared by this item itself)"),
    ("FTSPEC f: p; ^f: q;", "name declared twice 'f' (first declared in line 4)"),
    ("FTSPEC f: foreach(^q: {p})(q);", "name declared twice 'q' (first declared in line 2)"),
    ("FTSPEC f: x / 2 > 1 && x ^/ y > 1;", "bad divisor"),
    ("FTSPEC f: x < ^99999999999999999999;", "number too large"),
    ("FTSPEC f: ^x * x * x > 1;", "number range"),
    ("FTSPEC f: p -> ^O[0,3] q;", "mixed tense"),
    (f"FTSPEC f: ^{'n' * 65};", "word too long"),
]


class Faults(Case):
    def setUp(self):
        super().setUp()
        program("c2po")

    def refused(self, text):
        """The faults of a text, as check prints them and by JSON."""
        path = self.file("spec.c2po", text)
        status, out, errors = tool("check", path)
        self.assertEqual((status, errors), (1, ""))
        found = json.loads(tool("check", "--json", path)[1])["files"][0]
        self.assertEqual(out.splitlines()[-1], f"{path}: c2po: {found['c2po']}")
        return out, found["faults"]

    def test_places(self):
        for line, message in PLACES:
            with self.subTest(line):
                place = len(PRELUDE) + line.index("^")
                text = PRELUDE + line.replace("^", "")
                found = check(text)
                self.assertEqual([it.text() for it in found.faults], [message])
                row, column = text[:place].count("\n") + 1, place - text.rfind("\n", 0, place)
                out = "\n".join(report.as_text("spec.c2po", found))
                shown = text.splitlines()[row - 1].replace("\x01", "\N{REPLACEMENT CHARACTER}")
                self.assertIn(f"spec.c2po:{row}:{column}: error: {message}\n  {shown}\n  {' ' * (column - 1)}^", out)

    def test_each_wrong_line_of_the_page(self):
        """Each row of the page is the note of the row's wrong line, before all others of its message."""
        lines = {row.wrong: (what, row) for what, rows in notes.rows().items() for row in rows if row.wrong}
        self.assertGreater(len(lines), 45)
        for wrong, (what, row) in lines.items():
            with self.subTest(wrong):
                found = check(PRELUDE * (not row.rule.startswith("nothing names")) + wrong + "\n")
                self.assertEqual(found.faults[0].what, what)
                note = found.faults[0].note
                self.assertTrue(note in (row, rewritten(wrong)) or note.rule == "write" and note.right in (wrong, row.right), note)

    def test_c2po_has_the_last_word(self):
        """Over texts that were spoilt at random: check refuses just those that c2po does, and has its fault."""
        dice = random.Random(5)
        for k in range(150):
            text = dice.choice(EXAMPLES).read_text() if k % 2 else INPUTS + random_spec(dice)
            place = dice.randrange(len(text))
            put = dice.choice(["", "x", " ", ";", "&", "(", "}", ":", "F", "9", "\n", "ä", "-"])
            spoilt = text[:place] + put + text[place + dice.randrange(2) :]
            path = self.file("spoilt.c2po", spoilt)
            ran = subprocess.run([program("c2po"), "-o", "/dev/null", str(path)], stderr=subprocess.PIPE, encoding="utf-8")
            found = check(spoilt)
            self.assertEqual((found.answer.status, bool(found.faults)), (ran.returncode, ran.returncode != 0), spoilt)
            if ran.returncode:
                self.assertEqual(f"c2po: {found.answer.message}\n", ran.stderr)
                what = found.answer.placed()[1]
                self.assertIn(what, [fault.what for fault in found.faults], spoilt)

    def test_the_line_is_that_of_c2po(self):
        for line, message in PLACES:
            found = check(PRELUDE + line.replace("^", "") + "\n")
            if not message.startswith("syntax"):
                self.assertEqual(found.faults[0].line, found.answer.placed()[0], line)

    def test_faults_beside_the_first(self):
        text = (
            "INPUT p, q: bool; x: int;\nDEFINE a := x && p; b := a || q; c := x > 1;\n"
            "FTSPEC\n  f: b;\n  g: c -> p;\n  h: zz;\n  i: p == q;\nPTSPEC j: F[0,1] p; k: H[0,1] p\n"
        )
        _, faults = self.refused(text)
        found = [(it["line"], it["what"]) for it in faults]
        self.assertEqual(found, [(2, "wrong kind"), (6, "unknown name"), (7, "wrong kind"), (8, "mixed tense"), (8, "syntax")])

    def test_many_faults(self):
        path = self.file("many.c2po", "INPUT p: bool;\nFTSPEC\n" + "".join(f"f{k}: p{k};\n" for k in range(130)))
        found = json.loads(tool("check", "--json", path)[1])["files"][0]
        self.assertEqual((len(found["faults"]), found["more"]), (100, True))
        self.assertIn("there are more faults", tool("check", path)[1])

    def test_a_fault_of_the_whole(self):
        inputs = "INPUT p: bool;\n"
        deep = "F[0,1048576] " * 17
        _, faults = self.refused(f"{inputs}FTSPEC\n  ok: p;\n  late: {deep}p;\n")
        self.assertEqual((faults[0]["what"], faults[0]["line"], faults[0]["column"]), ("delay too large", 4, 3))
        self.assertIn("shorter windows", faults[0]["note"])
        signals = ", ".join(f"p{k}" for k in range(20))
        wide = "".join(f"  w{k}: F[0,1048576] p{k};\n" for k in range(20))
        _, faults = self.refused(f"INPUT {signals}: bool;\nFTSPEC\n{wide}")
        self.assertEqual((faults[0]["what"], faults[0]["hints"]), ("too many slots", ["with this output and those before it"]))

    def test_sarif(self):
        path = self.file("spec.c2po", PRELUDE + "FTSPEC f: p && zz;\n")
        status, out, _ = tool("check", "--sarif", path, ROOT / "examples/grant.c2po")
        found = json.loads(out)
        self.assertEqual((status, found["version"], len(found["runs"])), (1, "2.1.0", 1))
        result = found["runs"][0]["results"][0]
        place = result["locations"][0]["physicalLocation"]
        self.assertEqual(place["region"], {"startLine": 4, "startColumn": 16, "endColumn": 18})
        self.assertEqual((place["artifactLocation"]["uri"], result["ruleId"]), (path.as_uri(), "unknown name"))

    def test_examples_have_no_fault(self):
        self.assertEqual(tool("check", *EXAMPLES), (0, "", ""))

    def test_empty_texts(self):
        for text in ("", "\n", "-- nothing\n", "FTSPEC", ";", "x", "\x01", b"\xff\xfe"):
            path = self.file("spec.c2po", text)
            ran = subprocess.run([program("c2po"), "-o", "/dev/null", str(path)], stderr=subprocess.PIPE)
            status, out, errors = tool("check", path)
            self.assertEqual((status, errors), (1 if ran.returncode else 0, ""), text)

    def test_control_characters_stay_out_of_a_terminal(self):
        out, _ = self.refused("FTSPEC f: p\x1b[2J;\n")
        self.assertNotIn("\x1b", out)

    def test_words_and_files(self):
        self.assertEqual(tool("check", self.file("utf16.c2po", "INPUT p: bool;".encode("utf-16")))[0], 2)
        for words in ([], ["--server", "x"], ["--diff", "x"], ["--format", "--write", "-"], ["nowhere.c2po"], [str(self.folder)]):
            status, out, errors = tool("check", *words)
            self.assertEqual((status, out), (2, ""))
            self.one_line(errors)
        status, _, errors = tool("check", self.file("x.obs", b"MLTL\x02\x00"))
        self.assertEqual(status, 2)
        self.one_line(errors)
        status, _, errors = tool("check", ROOT / "examples/grant.c2po", env={"C2PO": "/nowhere"})
        self.assertEqual(status, 2)
        self.one_line(errors)
        self.assertEqual(tool("check", self.file("long.c2po", " " * ((1 << 20) + 1)))[0], 2)

    def test_the_standard_input(self):
        self.assertEqual(tool("check", "-", give="FTSPEC f: true;\n"), (0, "", ""))
        self.assertIn("-:1:11: error: unknown name 'p'", tool("check", "-", give="FTSPEC f: p;\n")[1])


class Grammar(Case):
    def test_examples_are_in_it(self):
        for path in EXAMPLES:
            for item in read(path.read_text()).items:
                self.assertIsNone(grammar.misfit(item), path)

    def test_deep_items(self):
        """What nests too deeply for this walk is left to c2po."""
        items = read("FTSPEC f: " + "(" * 5000 + "p" + ")" * 5000 + ";").items
        self.assertIsNone(grammar.misfit(items[0]))


# A line below the prelude, and how the reader's own line is written instead, which c2po takes.
REWRITTEN = [
    ("FTSPEC f: F[0,0.5] p;", "FTSPEC f: F[0,5] p;"),
    ("FTSPEC f: F[-1,3] p;", "FTSPEC f: F[0,3] p;"),
    ("FTSPEC f: G (p);", "FTSPEC f: (p);"),
    ("FTSPEC f: p -> F (q);", "FTSPEC f: p -> F[0,10] (q);"),
    ("FTSPEC f: p == true;", "FTSPEC f: p;"),
    ("/* why */ FTSPEC f: p;", "FTSPEC f: p; -- why"),
    ("FTSPEC f: p; // why", "FTSPEC f: p; -- why"),
    ("input z: bool;", "INPUT z: bool;"),
    ("FTSPEC REQ-1: p;", "FTSPEC REQ_1: p;"),
    ("ATOMIC a: x > 3;", "DEFINE a := x > 3;"),
    ("FTSPEC f: F[0,3s] p;", "FTSPEC f: F[0,30] p;"),
    ("PTSPEC f: p -> rose(q);", "PTSPEC f: p -> (q && O[1,1] !(q));"),
    ("FTSPEC f: not p and q; -- and so on", "FTSPEC f: !p && q; -- and so on"),
    ("FTSPEC f: p xor q;", "FTSPEC f: !(p <-> q);"),
    ("FTSPEC f: p & q | x ≥ 3;", "FTSPEC f: p && q || x >= 3;"),
]


class Rewrites(Case):
    def test_the_readers_own_line(self):
        for line, wanted in REWRITTEN:
            found = check(PRELUDE + line + "\n")
            self.assertEqual(found.faults[0].note.right, wanted)
            self.assertEqual(check(PRELUDE + wanted + "\n").faults, [], wanted)


TRACED = "INPUT request, grant: bool; x: int;\nFTSPEC f: request -> F[0,3] grant; g: x > 3;\n"
# Traces of that specification; the line, the column and the level of each fault, and what to write.
TRACES = [
    ("request,grant,x\n1,0,3\n", [(1, 1, "error", "# request,grant,x")]),
    ("# request,grant,x\n1,true,20.5\n", [(2, 3, "error", "1,1,20.5"), (2, 8, "error", "1,true,205")]),
    ('# request,grant,x\n1,0,"20"\n', [(2, 5, "error", "1,0,20")]),
    ("# request;grant;x\n1;0;3\n", [(1, 10, "error", "# request,grant,x")]),
    ("# request\tgrant\tx\n", [(1, 10, "error", "# request,grant,x")]),
    ("# Request,grant,x\n1,0,3\n", [(1, 3, "error", "# request,grant,x")]),
    ("\ufeff# request,grant,x\n1,0,3\n", [(1, 1, "error", "")]),
    ("# request,grant,x\r1,0,3\r", [(1, 1, "error", "")]),
    ("# request,grant,x\n1,0,3\n# c\n", [(3, 1, "error", "")]),
    ("# request,grant,x\n1,0\n", [(2, 4, "error", None)]),
    ("# request,x\n1,0\n", [(1, 12, "error", "# request,x,grant")]),
    ("# request,grant,x\n1,0,\n1,2,3\n", [(2, 5, "error", ""), (3, 3, "error", "")]),
    ("1,0,3\n", [(1, 1, "note", None)]),
    ("", [(1, 1, "note", None)]),
    ("# request,grant,x\n", [(1, 1, "note", None)]),
    ("@0,1,0,3\n", [(1, 1, "note", None), (1, 1, "error", None)]),
    ("# request,grant,x\n+1, 0 ,-3\r\n\n", []),
]


class Traces(Case):
    def test_each_fault_at_its_field(self):
        spec = self.file("spec.c2po", TRACED)
        for text, wanted in TRACES:
            found = check_trace(str(spec), str(self.file("rows.csv", text)), False)
            told = [(it.line, it.column + 1, it.level, it.note.right if it.note else None) for it in found.faults]
            self.assertLessEqual({it[:3] for it in wanted}, {it[:3] for it in told}, text)
            for one in wanted:
                self.assertIn(one, told, text)
        utf16 = self.file("rows.csv", "# request,grant,x\n".encode("utf-16"))
        self.assertIn("16 bits", check_trace(str(spec), str(utf16), False).faults[0].what)
        stamped = self.file("rows.csv", "# request,grant,x\n@0,1,0,3\n1,0,3\n")
        self.assertEqual([it.line for it in check_trace(str(spec), str(stamped), True).faults], [3])

    def test_the_tool(self):
        spec, rows = self.file("spec.c2po", TRACED), self.file("rows.csv", "# request,grant,x\n1,true,4\n")
        status, out, errors = tool("check", spec, rows)
        self.assertEqual((status, errors), (1, ""))
        lines = [f"{rows}:2:3: error: grant is 0 or 1, and not true", "  1,true,4", "    ^^^^", "  note: a truth is a number: `1,1,4`"]
        self.assertEqual(out.splitlines(), [*lines, f"{rows}: r2u2: trace line 2: not a whole number in column 2"])
        self.assertEqual(tool("check", spec, self.file("rows.csv", "# request,grant,x\n1,0,4\n")), (0, "", ""))
        found = json.loads(tool("check", "--json", spec, self.file("rows.csv", "# request,grant,x\n1,0,x\n"))[1])["files"][1]
        self.assertEqual((found["r2u2"], found["faults"][0]["column"]), ("trace line 2: not a whole number in column 3", 5))
        self.one_line(tool("check", spec, self.folder / "nowhere.csv")[2])


class Layout(Case):
    def image(self, text):
        out = self.folder / "out.obs"
        ran = subprocess.run([program("c2po"), "-o", str(out), "-"], input=text.encode(), stderr=subprocess.PIPE)
        return out.read_bytes() if not ran.returncode else ran.stderr.partition(b": ")[2].partition(b": ")[2]

    def same(self, text):
        """A text keeps its tokens, its comments and its program, and is set once and for all."""
        new, before = laid_out(text), read(text)
        after = read(new)
        self.assertEqual(laid_out(new), new)
        self.assertEqual([it.text for it in before.tokens], [it.text for it in after.tokens])
        self.assertEqual([it.text.rstrip() for it in before.comments], [it.text for it in after.comments])
        self.assertEqual(self.image(text), self.image(new))
        return new

    def test_examples(self):
        for path in EXAMPLES:
            new = self.same(path.read_text())
            squeezed = "".join(f"{line.strip()}\n" for line in path.read_text().splitlines())
            self.same(squeezed)
            self.assertEqual(len(new.splitlines()), len(path.read_text().splitlines()), path)

    def test_random_texts(self):
        dice = random.Random(3)
        for _ in range(60):
            text = INPUTS + random_spec(dice)
            self.same("".join(letter + " " * (letter in "()&|,;" and dice.random() < 0.3) for letter in text))

    def test_spoilt_texts(self):
        """Also what c2po refuses keeps its tokens."""
        dice = random.Random(9)
        for _ in range(400):
            text = dice.choice(EXAMPLES).read_text()
            for _ in range(dice.randrange(1, 6)):
                place = dice.randrange(len(text))
                put = dice.choice(["", "{", "}", "(", "\n", "--x\n", "-", "é", ";", "  ", "FTSPEC"])
                text = text[:place] + put + text[place + dice.randrange(3) :]
            new = laid_out(text)
            self.assertEqual(laid_out(new), new)
            self.assertEqual([it.text for it in read(text).tokens], [it.text for it in read(new).tokens])

    def test_comments_and_line_ends_anywhere(self):
        """Whatever stands between tokens, the layout of a layout is the layout, and tokens and comments stay."""
        texts = [path.read_text() for path in EXAMPLES] + [HEAD]

        @settings(max_examples=300, derandomize=True, database=None, deadline=None)
        @given(st.data())
        def holds(data):
            source = read(data.draw(st.sampled_from(texts)))
            first = data.draw(st.integers(0, len(source.tokens) - 1))
            kept = [token.text for token in source.tokens[first : first + 30]]
            gaps = [data.draw(st.sampled_from(GAPS)) for _ in kept]
            text = "".join(gap + word for gap, word in zip(gaps, kept))
            new = laid_out(text)
            self.assertEqual(laid_out(new), new, text)
            for part in ("tokens", "comments"):
                before, after = ([it.text.rstrip() for it in getattr(read(it), part)] for it in (text, new))
                self.assertEqual(before, after)

        holds()

    def test_what_it_sets(self):
        given = (
            "\n\n--  heaters\nINPUT  a,b :bool ;x:int;\n\n\n\nDEFINE s:={a,b};t := { a , b };\n    n := - x - -3*( x+1 ) ;\n"
            "STRUCT Unit :{on:bool;set_: set < int > ;};\nFTSPEC\n      f: !  a->F [ 0 , 3 ]b   -- why\n  && ( G[2](a||b) );\n"
            "g:foratmost( h :s,1 ) ( h ) ;\n"
        )
        wanted = (
            "--  heaters\nINPUT a, b: bool; x: int;\n\nDEFINE s := {a, b}; t := { a, b };\n  n := -x - -3 * (x + 1);\n"
            "STRUCT Unit: { on: bool; set_: set<int>; };\nFTSPEC\n  f: !a -> F[0,3] b   -- why\n    && (G[2] (a || b));\n"
            "  g: foratmost(h: s, 1)(h);\n"
        )
        self.assertEqual(laid_out(given), wanted)

    def test_the_tool(self):
        path = self.file("spec.c2po", "INPUT p:bool;\nFTSPEC f:p;")
        self.assertEqual(tool("check", "--format", path), (0, "INPUT p: bool;\nFTSPEC f: p;\n", ""))
        status, out, _ = tool("check", "--format", "--diff", path)
        self.assertEqual((status, "-INPUT p:bool;\n" in out, "+INPUT p: bool;\n" in out), (1, True, True))
        self.assertEqual(tool("check", "--format", "--write", path), (0, "", ""))
        self.assertEqual(path.read_text(), "INPUT p: bool;\nFTSPEC f: p;\n")
        self.assertEqual(tool("check", "--format", "--diff", path), (0, "", ""))
        self.assertEqual(tool("check", "--format", "-", give=""), (0, "", ""))
        status, _, errors = tool("check", "--format", "--write", self.file("ro", "INPUT  p: bool;"), "/nowhere/x")
        self.assertEqual(status, 2)
        self.one_line(errors)
