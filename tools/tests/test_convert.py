"""tools/convert: requirements of C2PO 3 and FRET, maps, and verdicts in the forms of other programs."""

import csv
import io
import itertools
import json
import random
import shutil
import subprocess
import sys

from support import ROOT, TOOLS, Case, program, shell, tool

ARBITER = """-- an arbiter
STRUCT Request: { state: int; };
INPUT st0, st1: int;
  idle, busy: bool;
DEFINE ASKED := 1; GRANTED := 2;
  requests := { Request(st0), Request(st1) };
FTSPEC foreach(r: requests)(r.state == ASKED -> F[0,3] (r.state == GRANTED));
  foratmost(r: requests, 1)(r.state == GRANTED);
  idle xor busy; -- at the end
  freed: busy => F[2] idle;
  next: F[1,1] idle;
PTSPEC rested: busy && (O[1,1] !busy) -> O[1,1] idle;
"""
TAKEN = """-- an arbiter
STRUCT
  Request: { state: int; };
INPUT
  st0, st1: int;
  idle, busy: bool;
DEFINE
  ASKED := 1;
  GRANTED := 2;
  requests := {Request(st0), Request(st1)};
FTSPEC
  foreach(r: requests)(r.state == ASKED -> F[0,3] (r.state == GRANTED));
  foratmost(r: requests, 1)(r.state == GRANTED);
  !(idle <-> busy);
-- at the end
  freed: busy => F[0,2] idle;
  next: F[1,1] idle;
PTSPEC
  rested: busy && (O[1,1] !busy) -> O[1,1] idle;
"""


class Converted(Case):
    def run_it(self, form, text, *words, status=0, ending="txt"):
        """The result and the remarks of a conversion."""
        env = {name.upper(): program(name) for name in ("c2po", "r2u2")}
        code, out, errors = tool("convert", form, *words, self.file(f"in.{ending}", text), env=env)
        self.assertEqual(code, status, errors)
        self.forgetful = [line.removeprefix("convert: ") for line in errors.splitlines() if "looks back" in line]
        return out, [line.removeprefix("convert: not taken: ") for line in errors.splitlines() if "looks back" not in line]

    def verdicts(self, text, trace):
        """The verdicts of a specification by output."""
        spec, rows = self.file("spec.c2po", text), self.file("trace.csv", trace)
        ran = subprocess.run([program("r2u2"), "--source", spec, rows], stdout=subprocess.PIPE, stderr=subprocess.PIPE, encoding="utf-8")
        self.assertEqual((ran.returncode, ran.stderr), (0, ""), text)
        found = {}
        for line in ran.stdout.split():
            name, _, rest = line.partition(":")
            found.setdefault(name, []).append(rest)
        return found


class C2po(Converted):
    def test_an_arbiter(self):
        self.assertEqual(self.run_it("from-c2po", ARBITER), (TAKEN, []))

    def test_what_is_not_taken(self):
        """Each item that isn't taken is listed by its line, and is a comment in a text that c2po accepts."""
        head = "INPUT a, b, c: bool; x: int;\nFTSPEC ok: a;\n"
        for text, said in (
            ("low: x < 2.5;", "float: 2.5 isn't an integer; scale it"),
            ("m: G a;", "G over the mission time: --mission N gives it a number"),
            ("m: F[0,M] a;", "F over the mission time: --mission N gives it a number"),
            ("wide: F[0,2000000] a;", "2000000: an interval ends at 1048576 at the latest"),
            ("mixed: a -> (O[1,1] b) && F[1,1] c;", "c2po: mixed tense"),
            ("tail: F[0,3] a && b;", "brackets are needed: F and then &&"),
            ("deny: !G[0,3] a -> b;", "brackets are needed: G and then ->"),
            ("w: x == 2 U[0,4] b;", "brackets are needed around U and its operands"),
            ("w: a U[0,4] b && c;", "brackets are needed around U and its operands"),
            ("i: a xor b -> c;", "brackets are needed around xor and its operands"),
            ("next: X a;", "no next here: F[1,1] is the row after"),
            ("trig: a T[0,2] b;", "no trigger here: write it by S and !"),
            ("two: a -> b -> c;", "brackets are needed: -> and then ->"),
            ("cmp: F[0,3] x == 2;", "brackets are needed: F and then =="),
            ("u: !a U[0,4] b;", "brackets are needed around the operands of U"),
            ("v: a U[0,4] b U[0,4] c;", "brackets are needed around the operands of U"),
            ("e: a xor b && c;", "brackets are needed around xor and its operands"),
            ("e: a xor !b;", "brackets are needed around the operands of xor"),
            ("bits: (x & 3) == 1;", "bits: no & here"),
            ("shift: x << 2 == 4;", "bits: no << here"),
            ("f: rate(x) < 3;", "no function rate here"),
            ("at: x[1] == 3;", "arrays: no index here"),
            ("q: nothing;", "c2po: unknown name"),
            ("half: a &&;", "the end isn't understood"),
            ("odd: a ? b;", "the character '?'"),
        ):
            out, told = self.run_it("from-c2po", head + text + "\nlast: b;\n", status=1)
            self.assertEqual(told, [f"line 3: {said}"], text)
            self.assertIn(f"-- line 3 isn't taken: {said}: FTSPEC {text[:3].split(':')[0]}", out)
            self.assertIn("last: b;", out)

    def test_what_uses_it_is_not_taken_either(self):
        text = "INPUT v: float; a: bool;\nDEFINE low := v < 3;\n  lower := low && a;\nFTSPEC f: lower -> a;\n g: a;\n"
        out, told = self.run_it("from-c2po", text, status=1)
        self.assertEqual(told, ["line 1: float: --scale v=1000, or --signals FILE, makes v an integer", "line 2: it uses v, of line 1",
                                "line 3: it uses low, of line 2", "line 4: it uses lower, of line 3"])
        self.assertEqual([line for line in out.splitlines() if not line.startswith("--")], ["INPUT", "  a: bool;", "FTSPEC", "  g: a;"])

    def test_other_sections(self):
        text = "INPUT a: bool;\nATOMIC a0 := rate(a) < 3;\nENUM Mode: { ON, OFF };\nFTSPEC f: a;\n"
        self.assertEqual(self.run_it("from-c2po", text, status=1)[1], [
            "line 2: rate: --write-signals FILE says where its signal goes", "line 3: enumerations: define a number for each name"])

    def test_numbers_that_change(self):
        text = "INPUT a: bool; FTSPEC a;\nF[0,3] G a;\nb: a;\nG[0,2] a;\n"
        told = self.run_it("from-c2po", text, status=1)[1]
        self.assertEqual(told, ["convert: from line 4 on, formulas without a label go by lower numbers, since one before isn't taken",
                                "line 2: G over the mission time: --mission N gives it a number"])

    OLD = """INPUT
  i0: int; f0, heading: float; on: bool;
DEFINE
  limit := 2.5;
ATOMIC
  a0 := rate(f0) < 10.5;
  a1 := movavg(f0, 5) >= limit;
  a2 := abs_diff_angle(heading, 105) < 50;
  a3 := int(i0) == 3;
  a4 := bool(on) != 1;
FTSPEC
  s: a0 -> F[0,3] a1;
  t: a2 && a3 && (2 * f0 + 1.5 < limit);
  u: f0 < i0 || a4;
"""

    def test_decimals_and_atomic_checkers(self):
        path = self.folder / "new.toml"
        words = ("--scale", "f0=1000", "--scale", "heading=10", "--write-signals", path)
        out, told = self.run_it("from-c2po", self.OLD, *words)
        self.assertEqual(told, [])
        for line in ("a0 := f0_rate < 10500;", "a1 := f0_mean_5 >= 2500;", "a2 := heading_angle_105 < 500;", "a3 := i0 == 3;", "a4 := !on;",
                     "t: a2 && a3 && (2 * f0 + 1500 < 2500);", "u: f0 < (i0 * 1000) || a4;"):
            self.assertIn(f"  {line}\n", out)
        spec, log = self.file("new.c2po", out), self.file("log.csv", "i0,f0,heading,on\n3,0,200,1\n3,10.4,1,0\n3,-1,105.04,0\n")
        status, trace, errors = tool("trace", "--spec", spec, "--signals", path, log)
        self.assertEqual((status, errors), (0, ""))
        self.assertEqual(trace, "# i0,f0,heading,on,f0_rate,f0_mean_5,heading_angle_105\n"
                         "3,0,2000,1,0,0,950\n3,10400,10,0,10400,5200,1040\n3,-1000,1050,0,-11400,3133,0\n")
        again = self.run_it("from-c2po", self.OLD, "--signals", path, "--write-signals", self.folder / "other.toml")
        self.assertEqual((again, (self.folder / "other.toml").read_text().count("[")), ((out, []), 3))

    def test_decimals_that_cannot_be_scaled(self):
        head = "INPUT v, w: float; x: int;\nFTSPEC ok: x > 1;\n"
        for text, said in (
            ("a: v + w < 2.5;", "v and w have different scales"), ("a: v * w < 2;", "v and w have different scales"),
            ("a: v * x < 2;", "a product of scaled numbers: one side has to be an integer"), ("a: v / 2 < 2;", "/ of scaled numbers"),
            ("a: v < 2.55;", "2.55 times 10 isn't an integer: a larger scale is needed"), ("a: 1.5 * v < 2;", "1.5 as a factor isn't an integer"),
        ):
            told = self.run_it("from-c2po", head + text + "\n", "--scale", "v=10", "--scale", "w=100", status=1)[1]
            self.assertEqual(told, [f"line 3: {said}"], text)

    def test_mission_time(self):
        text = "INPUT a: bool; FTSPEC f: G[0,M] a; g: F a; PTSPEC h: H a;\n"
        out = self.run_it("from-c2po", text, "--mission", "99")[0]
        for line in ("f: G[0,99] a;", "g: F[0,99] a;", "h: H[0,99] a;"):
            self.assertIn(line, out)

    def test_meanings(self):
        """Exclusive or, and the signs that both have, over all short traces."""
        out = self.run_it("from-c2po", "INPUT a, b: bool; FTSPEC e: (a xor b); n: !a || b && a -> !b;\n")[0]
        for rows in itertools.product(("0,0", "0,1", "1,0", "1,1"), repeat=4):
            bits = [(row[0] == "1", row[2] == "1") for row in rows]
            told = self.verdicts(out, "# a,b\n" + "".join(f"{row}\n" for row in rows))
            self.assertEqual(told["e"], [f"{k},{'T' if a != b else 'F'}" for k, (a, b) in enumerate(bits)])
            self.assertEqual(told["n"], [f"{k},{'F' if (not a or b and a) and b else 'T'}" for k, (a, b) in enumerate(bits)])

    def test_sets_of_structs(self):
        text = "STRUCT Bus: { on: bool; }; All: { buses: set<Bus>; };\nINPUT a, b: bool;\nDEFINE all := All({Bus(a), Bus(b)});\n"
        out = self.run_it("from-c2po", text + "FTSPEC f: foreach(m: all.buses)(m.on);\n")[0]
        self.assertIn("All: { buses: set<Bus>; };", out)
        told = self.run_it("from-c2po", "INPUT s: set<int>; a: bool;\nFTSPEC f: a;\n", status=1)[1]
        self.assertEqual(told, ["line 1: sets have no type of inputs"])

    def test_maps(self):
        out, told = self.run_it("from-map", "a: 0\nb:2 -- the bus\n# none\n\nc: 4\n")
        self.assertEqual((out, told), ("# a,_0,b,_1,c\n", []))
        told = self.run_it("from-map", "a: 0\nx\nb: 0\na: 3\nc: 70000\n", status=1)[1]
        self.assertEqual(told, ["line 2: it isn't NAME: COLUMN", "line 3: column 0 is that of a", "line 4: a has a column already",
                                "line 5: a trace has 65536 columns"])
        self.run_it("from-map", "x\n", status=2)


def requirement(label, timing, p="p", text="", duration="2", scope="null", mode="", condition="null", when=""):
    """A requirement as FRET exports it."""
    meaning = {"scope": {"type": scope}, "scope_mode": mode, "condition": condition, "regular_condition": when, "timing": timing,
               "duration": duration if timing in ("within", "for", "after") else None, "post_condition": f"({p})"}
    text = text or f"it shall {timing} {duration} ticks satisfy p"
    return {"reqid": label, "project": "P", "fulltext": text, "semantics": meaning}


def stretches(rows, scope):
    """The first rows of a scope and of the rows after it; the last is past the rows where it doesn't end."""
    modes, end = [row.get("m") for row in rows], len(rows) + 99
    left = next((k for k in range(1, len(rows)) if modes[k - 1] and not modes[k]), end)
    entered = next((k for k, it in enumerate(modes) if it), end)
    if scope in ("in", "notin", "onlyIn"):
        inside = [it == (scope == "in") for it in modes]
        starts = [k for k, it in enumerate(inside) if it and not (k and inside[k - 1])]
        return [(k, next((t for t in range(k, len(rows)) if not inside[t]), end)) for k in starts]
    whole = {"null": (0, end), "before": (0, entered), "onlyAfter": (0, left), "after": (left, end), "onlyBefore": (entered, end)}[scope]
    return [whole] if whole[0] < min(whole[1], len(rows)) else []


def broken(rows, scope, condition, timing):
    """The rows at which a sentence of FRET is broken."""
    found, wanted, p = set(), not scope.startswith("only"), [row["p"] for row in rows]
    p = [it == wanted for it in p]
    for begin, end in stretches(rows, scope):
        last = min(end, len(rows))
        for q in [begin] if condition == "null" else [k for k in range(begin, last) if rows[k]["c"]]:
            stop = next((k for k in range(q, len(rows)) if rows[k].get("s")), len(rows) + 99)
            if timing == "null":
                found |= {t for t in range(q, last) if not p[t]}
            elif timing in ("immediately", "next"):
                at = q + (timing == "next")
                found |= {at} if at < last and not p[at] else set()
            elif timing == "within":
                found |= {t for t in range(q, min(last, q + 3)) if not p[t]}
            elif timing == "for":
                found |= {q + 2} if q + 2 < last and not any(p[q : q + 3]) else set()
            elif timing == "until":
                found |= {t for t in range(q, min(last, stop)) if not p[t]}
            elif timing == "before":
                found |= {stop} if stop < last and not any(p[q:stop]) else set()
            else:
                found |= {end} if end < len(rows) and not any(p[q:end]) else set()
    return found


class Fret(Converted):
    TIMINGS = ("always", "immediately", "within", "for", "after")
    MODELS = [{"variable_name": name, "dataType": "boolean"} for name in "pqr"]

    def fret(self, requirements, *words, status=0, models=None):
        document = {"requirements": requirements, "modelDocs": self.MODELS if models is None else models}
        return self.run_it("from-fret", json.dumps(document), *words, status=status, ending="json")

    def against(self, example, made, columns):
        """The formulas have the verdicts of those of the example that look back, over random traces."""
        text = self.fret(made)[0]
        plain = (ROOT / f"examples/patterns/{example}.c2po").read_text()
        rng = random.Random(example)
        for _ in range(12):
            rows = "".join(",".join(str(int(rng.random() < (0.5 if name == "p" else 0.25))) for name in columns) + "\n" for _ in range(30))
            trace = f"# {','.join(columns)}\n{rows}"
            mine, theirs = self.verdicts(text, trace), self.verdicts(plain, trace)
            for timing in self.TIMINGS:
                other = next((theirs[name] for name in (f"{timing}_back", f"{timing}_ahead_back") if name in theirs), None)
                if other is None and timing == "always":
                    continue
                self.assertEqual(mine[timing], other, (example, timing, trace))

    def test_globally(self):
        self.against("scope_globally", [requirement(it, it) for it in self.TIMINGS], "p")

    def test_before(self):
        self.against("scope_before", [requirement(it, it, scope="before", mode="r") for it in self.TIMINGS], "pr")

    def test_after_a_condition(self):
        self.against("scope_after", [requirement(it, it, condition="holding", when="q") for it in self.TIMINGS], "pq")

    def test_after_until(self):
        made = [requirement(it, it, condition="holding", when="q", scope="notin", mode="r") for it in self.TIMINGS]
        self.against("scope_after_until", made, "pqr")

    def test_in_a_mode_by_hand(self):
        out = self.fret([requirement("w", "within", scope="in", mode="q", duration="1")])[0]
        told = self.verdicts(out, "# p,q\n0,0\n0,1\n0,1\n0,1\n1,0\n0,1\n0,0\n0,1\n1,1\n")
        self.assertEqual([line for line in told["w"] if line.endswith("F")], ["2,F"])

    def test_a_condition_is_an_edge_within_the_scope(self):
        out = self.fret([requirement("i", "immediately", scope="in", mode="q", condition="regular", when="r")])[0]
        told = self.verdicts(out, "# p,q,r\n0,0,1\n0,1,1\n0,1,1\n0,1,0\n1,1,1\n0,0,1\n")
        self.assertEqual([line for line in told["i"] if line.endswith("F")], ["1,F"])

    def test_after_a_mode(self):
        """From the row on at which the mode ends the first time."""
        out = self.fret([requirement("i", "immediately", scope="after", mode="q")])[0]
        told = self.verdicts(out, "# p,q\n0,0\n0,1\n0,0\n0,1\n0,0\n")
        self.assertEqual([line for line in told["i"] if line.endswith("F")], ["2,F"])

    def test_other_timings_by_their_sentences(self):
        """A formula is false at the rows at which the sentence is broken, over random traces, in each scope."""
        rng = random.Random(9)
        made = []
        for scope in ("null", "in", "notin", "before", "after"):
            for condition in ("null", "holding"):
                for timing in ("next", "until", "before", "eventually"):
                    if timing == "eventually" and scope in ("null", "after"):
                        continue
                    label = f"{timing}_{scope}_{condition}"
                    mode = "m" if scope != "null" else ""
                    made.append(requirement(label, timing, scope=scope, mode=mode, condition=condition, when="c" * (condition == "holding")))
                    made[-1]["semantics"]["stop_condition"] = "s"
        for scope in ("onlyIn", "onlyBefore", "onlyAfter"):
            made += [requirement(f"{timing}_{scope}_null", timing, scope=scope, mode="m") for timing in ("immediately", "null", "next", "within", "for")]
        models = [{"variable_name": name, "dataType": "boolean"} for name in "pmcs"]
        text = self.fret(made, models=models)[0]
        columns = [name for line in text.splitlines() if line.startswith("INPUT") for name in line[6:].split(":")[0].split(", ")]
        for _ in range(12):
            rows = [{name: rng.random() < (0.3 if name in "sc" else 0.5) for name in columns} for _ in range(30)]
            told = self.verdicts(text, f"# {','.join(columns)}\n" + "".join(",".join(str(int(row[name])) for name in columns) + "\n" for row in rows))
            for it in made:
                timing, scope, condition = it["reqid"].split("_")
                wanted = [f"{t},{'F' if t in broken(rows, scope, condition, timing) else 'T'}" for t in range(30)]
                self.assertEqual(told[it["reqid"]], wanted, (it["reqid"], rows))

    def test_functions(self):
        for text, wanted in (
            ("preBool(false, q)", "(O[1,1] q)"), ("preBool(TRUE, (q & r))", "!(O[1,1] !(q && r))"), ("persisted(3, p)", "(H[0,3] p)"),
            ("occurred(2, p) & q", "((O[0,2] p) && q)"), ("absReal(x - 2) < 3", "((x - 2) < 3 && 0 - (x - 2) < 3)"),
            ("q | abs(x) >= 3", "(q || ((x) >= 3 || 0 - (x) >= 3))"),
        ):
            self.assertIn(f"DEFINE a_p := {wanted};", self.fret([requirement("a", "always", text)], models=[])[0].replace("\n", " "), text)
        for text, said in (
            ("preBool(q, r)", "preBool begins with q"), ("persisted(x, p)", "x isn't a number of rows"), ("preBool(q)", "preBool has 2 arguments"),
            ("3 > abs(x)", "abs is taken where it is compared with a number on its right alone"), ("abs(x) + 1 > 3", "on its right alone"),
        ):
            self.assertIn(said, self.fret([requirement("a", "always", text)], models=[], status=1)[1][0], text)

    def test_windows_that_forget(self):
        self.fret([requirement("a", "always", scope="before", mode="q"), requirement("b", "always")], "--rate", "10")
        self.assertEqual(self.forgetful, ["a looks back 1048576 rows and forgets what was before, 29.1 hours; a latch of a file of signals doesn't"])

    def test_decimals(self):
        made = [requirement("V-1", "always", "v > 2.5 & absReal(v) < 9.75")]
        models = [{"variable_name": "v", "dataType": "double"}]
        path, ids = self.folder / "new.toml", self.folder / "ids.csv"
        out = self.fret(made, "--scale", "v=100", "--write-signals", path, "--ids", ids, models=models)[0]
        self.assertIn("-- V_1, V-1: it shall", out)
        self.assertIn("DEFINE V_1_p := (v > 250 && ((v) < 975 && 0 - (v) < 975));", out)
        self.assertEqual((path.read_text(), ids.read_text()), ('[v]\nfrom = "v"\nscale = 100\n', "V_1,V-1\n"))

    def test_units(self):
        made = [requirement("a", "within", text="it shall within 0.5 seconds satisfy p", duration="0.5"),
                requirement("b", "for", text="it shall for 3 ticks satisfy p", duration="3")]
        out = self.fret(made, "--rate", "10")[0]
        self.assertIn("O[5,5] first -> O[0,5] a_p", out)
        self.assertIn("O[0,3] first -> b_p", out)
        told = self.fret(made, status=1)[1]
        self.assertEqual(told, ["a: within 0.5 seconds: --rate says how many rows a second has"])
        self.assertEqual(self.fret(made, "--rate", "3", status=1)[1], ["a: within 1/2 seconds: 1.5 rows"])

    def test_expressions(self):
        made = [requirement("e", "always", "(x + 1 > 3 & !q => p | r) <=> (x = y)")]
        self.assertEqual(self.fret(made, status=1)[1], ["e: whether y is a number isn't given"])
        out = self.fret(made, models=[{"variable_name": "y", "dataType": "integer"}])[0]
        self.assertIn("INPUT q, p, r: bool;\nINPUT x, y: int;\n", out)
        self.assertIn("DEFINE e_p := ((x + 1 > 3 && !q -> p || r) <-> (x == y));", out)

    def test_what_is_not_taken(self):
        unless, twice, strict = (requirement("a", "always", condition="regular", when="q") for _ in range(3))
        unless["semantics"]["qualifier_word"], twice["semantics"]["pre_condition"] = "unless", "r"
        strict["semantics"]["scope"] = {"type": "before", "required": True}
        for made, said in (
            (requirement("a", "until"), "a: its timing has no stop_condition"),
            (requirement("a", "null"), "a: eventually in a scope without an end is never decided: write within"),
            (requirement("a", "always", scope="onlyIn", mode="q"), "a: the scope onlyin with the timing always has more than one meaning"),
            (requirement("a", "always", "sqrt(x) > 2"), "a: no function sqrt here"),
            (requirement("a", "always", "p xor q"), "a: xor isn't in the language here"),
            (requirement("a", "always", "x > 2.5"), "a: 2.5 isn't an integer, and no signal there has a scale: --scale or --signals"),
            (requirement("a", "always", "p > q"), "a: c2po: wrong kind"),
            (requirement("a", "always", "p @ q"), "a: '@ q)' isn't understood"),
            (requirement("a", "always", "v > 2"), "a: v is double: --scale v=1000, or --signals FILE, makes it an integer"),
            (requirement("a", "within", text="it shall soon satisfy p"), "a: its text has no duration of within"),
            (requirement("a", "within", text="within 2 ticks, it shall within 2 ticks satisfy p"), "a: its text has 2 durations of within"),
            (requirement("a", "within", text="it shall within 3 ticks satisfy p"), "a: within 3 ticks: its semantics has the duration 2"),
            (requirement("a", "always", condition="noholding", when="q"), "a: the condition noholding isn't in the tables"),
            (unless, "a: the condition word unless isn't in the tables"),
            (twice, "a: its condition has two texts"),
            (strict, "a: the scope before with required isn't in the tables"),
            (requirement("a", "always", "p => q => r"), "a: brackets are needed: -> and another one"),
            (requirement("a", "always", "!x = 3"), "a: brackets are needed: ! and then =="),
            (requirement("a", "always", "x = y"), "a: whether x is a number isn't given"),
            (requirement("a", "always", "d & p"), "a: d is defined in FRET: write a DEFINE"),
            (requirement("a", "always", condition="regular"), "a: its condition has no text"),
            ({"reqid": "a", "fulltext": "free text"}, "a: it has no semantics"),
        ):
            models = self.MODELS + [{"variable_name": "v", "dataType": "double"}]
            models += [{"variable_name": "d", "dataType": "boolean", "idType": "Internal", "assignment": "p and q"}]
            out, told = self.fret([made, requirement("good", "always", "q")], status=1, models=models)
            self.assertEqual(told, [said])
            self.assertIn(f"-- a isn't taken: {said[3:]}", out)
            self.assertIn("PTSPEC good: good_p;", out)

    def test_labels(self):
        out = self.fret([requirement("FSM-001", "always"), requirement("FSM 001", "always"), requirement("1", "always"), requirement("F", "always")])[0]
        for label in ("FSM_001", "FSM_001_", "r_1", "r_F"):
            self.assertIn(f"PTSPEC {label}: ", out)

    def test_foreign_json(self):
        for text in ("{", "[1]", "7", '{"requirements": 3}', "[" * 100000):
            env = {"C2PO": program("c2po")}
            status, out, errors = tool("convert", "from-fret", self.file("x.json", text), env=env)
            self.assertEqual((status, out), (2, ""))
            self.one_line(errors)


class Ogma(Converted):
    """The JSON that Ogma reads: a component with formulas of the past."""

    VARIABLES = [{"name": "flag", "type": "bool"}, {"name": "p", "type": "bool"}, {"name": "temp", "type": "real"}]
    INTERNAL = [{"name": "hot", "type": "bool", "assignmentLustre": "temp > 20.5 and flag", "assignmentCopilot": ""}]

    def ogma(self, formulas, *words, status=0):
        document = {"Component": {"Internal_variables": self.INTERNAL, "Other_variables": self.VARIABLES, "Functions": [], "Requirements": formulas}}
        return self.run_it("from-fret", json.dumps(document), *words, status=status, ending="json")

    def test_formulas(self):
        for key, text, wanted in (
            ("ptLTL", "(H (flag -> (O[<=3] p)))", "(flag -> (O[0,3] p))"), ("ptLTL", "H (flag) -> p", "((H[0,1048576] flag) -> p)"),
            ("ptLTL", "H ((Y flag) & (Z p) | ! p)", "(((O[1,1] flag) && (H[1,1] p)) || !p)"), ("ptLTL", "p S[2,5] flag", "(p S[2,5] flag)"),
            ("ptLTL", "p T[=2] flag", "!(!p S[2,2] !flag)"), ("ptLTL", "O[<3] p", "(O[0,2] p)"),
            ("CoCoSpecCode", "H((flag and FTP) => S(p, flag))", "((flag && !(O[1,1] true)) -> (p S[0,1048576] flag))"),
            ("CoCoSpecCode", "not (temp + 1.5 <> 2.0)", "!((temp + 15) != 20)"),
        ):
            out = self.ogma([{"name": "R-1", key: text, "fretish": "as it was written"}], "--scale", "temp=10")[0]
            self.assertIn(f"-- R_1, R-1: as it was written\nPTSPEC R_1: {wanted};", out, text)

    def test_variables_of_the_component(self):
        out = self.ogma([{"name": "a", "ptLTL": "hot -> Y hot"}], "--scale", "temp=10")[0]
        self.assertIn("DEFINE a_hot := ((temp > 205) && flag);\nPTSPEC a: (a_hot -> (O[1,1] a_hot));", out)

    def test_what_is_not_taken(self):
        for key, text, said in (
            ("ptLTL", "G p", "G looks ahead: only formulas of the past are taken"), ("CoCoSpecCode", "true -> pre p", "-> of Lustre"),
            ("ptLTL", "p -> flag -> p", "brackets are needed: -> and then ->"), ("ptLTL", "p S flag S p", "brackets are needed: S and then S"),
            ("ptLTL", "! temp > 3", "brackets are needed: ! and then >"), ("ptLTL", "temp > 2.55", "2.55 times 10 isn't an integer"),
            ("ptLTL", "O[5,3] p", "[5,3] isn't an interval"), ("ptLTL", "", "it has no ptLTL and no CoCoSpecCode"), ("ptLTL", "abs(temp) > 1", "no function abs here"),
        ):
            out, told = self.ogma([{"name": "a", key: text}], "--scale", "temp=10", status=1)
            self.assertIn(said, told[0], text)
            self.assertIn("-- a isn't taken: ", out)
        self.assertIn("temp is real: --scale temp=1000", self.ogma([{"name": "a", "ptLTL": "temp > 3"}], status=1)[1][0])


LINES = "f:1,T\ng:4,inactive\nf:2,F\nf:6,T\ng:5,verified\n"


class Verdicts(Case):
    def made(self, form, *words, give=LINES):
        status, out, errors = tool("convert", form, *words, give=give)
        self.assertEqual((status, errors), (0, ""))
        return out

    def test_vcd(self):
        out = self.made("to-vcd", "--rate", "10")
        self.assertEqual(out.partition("$enddefinitions $end\n")[2].split(),
                         '#0 1! z" #200000000 0! #300000000 1! #500000000 1" #600000000 x" #700000000'.split())
        self.assertIn("$var wire 1 ! f $end", out)

    def test_vcd_is_read_back(self):
        """By tools/trace, and by the readers of Debian's gtkwave where they are there."""
        path = self.file("f.vcd", self.made("to-vcd", give="f:1,T\nf:2,F\nf:6,T\ng:3,T\ng:6,F\n"))
        status, out, errors = tool("trace", "--rate", "1", path)
        self.assertEqual((status, out, errors), (0, "# f,g\n1,1\n1,1\n0,1\n1,1\n1,0\n1,0\n1,0\n1,0\n", ""))
        if not shutil.which("vcd2fst"):
            self.skipTest("no vcd2fst: apt-get install gtkwave")
        self.assertEqual(shell('vcd2fst "$IN" "$IN.fst" && fst2vcd "$IN.fst" | grep -c "^[01]"', IN=path)[:2], (0, "5\n"))

    def test_vcd_of_many_outputs(self):
        out = self.made("to-vcd", give="".join(f"f{k}:0,T\n" for k in range(20000)))
        codes = [line.split()[3] for line in out.splitlines() if line.startswith("$var")]
        self.assertEqual(len(set(codes)), 20000)

    def test_csv(self):
        rows = list(csv.reader(io.StringIO(self.made("to-csv"))))
        self.assertEqual(rows[0], ["time", "f", "g"])
        self.assertEqual(rows[3], ["2", "F", "inactive"])
        self.assertEqual(rows[7], ["6", "T", ""])
        self.assertEqual(self.made("to-csv", "--rate", "4", give="f:1,T\n"), "time,f\n0,T\n0.25,T\n")
        spec = ROOT / "examples/valves.c2po"
        self.assertEqual(self.made("to-csv", "--spec", spec, give="shut:0,T\n"), "time,filling,shut\n0,,T\n")

    def test_rows_come_as_soon_as_they_are_complete(self):
        words = [sys.executable, str(TOOLS / "convert"), "to-csv", "--spec", str(ROOT / "examples/valves.c2po")]
        child = subprocess.Popen(words, stdin=subprocess.PIPE, stdout=subprocess.PIPE, encoding="utf-8")
        self.addCleanup(child.stdout.close)
        child.stdin.write("shut:0,T\nfilling:0,T\n")
        child.stdin.flush()
        self.assertEqual([child.stdout.readline(), child.stdout.readline()], ["time,filling,shut\n", "0,T,T\n"])
        child.stdin.close()
        self.assertEqual(child.wait(), 0)

    def test_json(self):
        told = [json.loads(line) for line in self.made("to-json", "--rate", "10").splitlines()]
        self.assertEqual(told[2], {"output": "f", "from": 2, "to": 2, "word": "F", "seconds": 0.2})
        self.assertEqual(len(told), 5)

    def test_faults(self):
        for words, give in (
            ([], ""), (["to-pdf"], ""), (["to-vcd", "--mission", "3"], ""), (["from-map", "--rate", "3"], ""), (["to-csv", "--rate", "0"], ""),
            (["to-csv"], "f;1\n"), (["to-vcd", "none"], ""), (["to-csv", "--spec", "none"], ""), (["to-json", "-o", "no/such/file"], ""),
            (["to-csv", "--spec", ROOT / "examples/grant.c2po"], "g:0,T\n"), (["from-fret"], "x"), (["from-map"], ""),
        ):
            status, _, errors = tool("convert", *words, give=give)
            self.assertEqual(status, 2, (words, errors))
            self.one_line(errors)
        self.assertEqual(tool("convert", "--help")[0], 0)

    def test_a_file_is_written_whole_or_not_at_all(self):
        path = self.file("out.csv", "before")
        self.assertEqual(tool("convert", "to-csv", "-o", path, give="f;1\n")[0], 2)
        self.assertEqual(path.read_text(), "before")
        self.made("to-csv", "-o", path)
        self.assertTrue(path.read_text().startswith("time,f,g\n"))
