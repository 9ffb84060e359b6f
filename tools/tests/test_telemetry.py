"""tools/trace over telemetry as it comes: dates, lists of values, JSON lines, dumps, several files, fields without a value."""

import random
from fractions import Fraction

from support import Case, tool

from r2u2tools.telemetry.times import UNITS, Clock

SPEC = "INPUT alt: int; up: bool; FTSPEC f: up -> alt > 3;"
DUMP = """$date today $end
$comment made by hand: $var is no word here $end
$timescale 10 ms $end
$scope module top $end
$var wire 1 ! up $end
$scope module deep $end
$var integer 8 # alt [7:0] $end
$var reg 4 b low $end
$upscope $end
$var real 64 % volts $end
$upscope $end
$enddefinitions $end
#0
$dumpvars 1! b11111111 # b1010 b r1.25 % $end
#10
0!
#30
b101 #
x!
"""


class Telemetry(Case):
    def made(self, text, *words, name="in.csv", remarks=""):
        path = self.file(name, text)
        status, out, errors = tool("trace", *words, path)
        self.assertEqual((status, errors), (0, remarks), words)
        return out

    def refused(self, text, *words, name="in.csv", status=1):
        path = self.file(name, text)
        code, _, errors = tool("trace", *words, path)
        self.assertEqual(code, status, errors)
        self.one_line(errors)
        return errors.removeprefix(f"trace: {path}: ").rstrip("\n")


class Dates(Telemetry):
    def test_iso_8601(self):
        text = "t,a\n2026-11-29T12:00:00.000001Z,1\n2026-11-29 13:00:00.500001+01:00,2\n2026-11-29T120001.000001,3\n2026-333T12:00:01.500001,4\n"
        self.assertEqual(self.made(text, "--time", "t", "--rate", "2"), "# a\n1\n2\n3\n4\n")
        start = ["--start", "2026-11-29T12:00:00Z", "--snap", "0.00001"]
        self.assertIn("off by 1e-06 s", tool("trace", "--time", "t", "--rate", "2", *start, give=text)[2])

    def test_seconds_are_exact(self):
        clock = Clock(UNITS["s"])
        for text, seconds in (
            ("1970-01-01T00:00:00Z", 0), ("1970-01-02T00:00", 86400), ("2000-02-29T23:59:59.25+00:30", Fraction(3807467997, 4)),
            ("1969-12-31T23:59:59Z", -1), ("2026-001T00:00:00", 1767225600),
        ):
            self.assertEqual(clock.fraction(text), seconds, text)
        for text in ("2026-13-01T00:00:00", "2026-02-30T00:00:00", "2026-01-01T24:00:00", "2026-01-01T00:00:60", "2026-367T00:00:00", "12:00", ""):
            self.assertIsNone(clock.read(text), text)

    def test_units(self):
        for unit, step in (("ms", 100), ("us", 100000), ("ns", 100000000)):
            text = "t,a\n" + "".join(f"{7 + k * step},{k}\n" for k in range(5))
            self.assertEqual(self.made(text, "--time", "t", "--rate", "10", "--time-unit", unit), "# a\n0\n1\n2\n3\n4\n")

    def test_no_date(self):
        self.assertEqual(self.refused("t,a\n2026-02-30T00:00:00,1\n", "--time", "t", "--rate", "1"),
                         "line 2, column 1 (t): '2026-02-30T00:00:00' is no time in seconds")


class Notations(Telemetry):
    def test_decimal_comma(self):
        self.assertEqual(self.made("t;v\n0,5;3,25\n1,5;-0,75\n", "--decimal-comma", "--scale", "v=4", "--time", "t", "--rate", "1"), "# v\n13\n-3\n")
        self.assertEqual(self.made('v,w\n"3,5",1\n', "--decimal-comma", "--delimiter", ",", "--scale", "v=2"), "# v,w\n7,1\n")
        self.assertIn("'1.234' isn't a number", self.refused("v;w\n1.234;1\n", "--decimal-comma"))

    def test_hexadecimal(self):
        self.assertEqual(self.made("a,b\n0x1F,ff\n0X10,00\n", "--hex", "a", "--hex", "b"), "# a,b\n31,255\n16,0\n")
        self.assertEqual(self.made("a\n10\n", "--hex", "a"), "# a\n16\n")
        self.assertIn("'0xg' isn't a number", self.refused("a\n0xg\n", "--hex", "a"))
        self.assertIn("out of range", self.refused("a\nffffffff\n", "--hex", "a"))

    def test_preamble_and_comments(self):
        text = "Log of 1 May\nunit: V\na,b\n# a remark\n1,2\n\n# more\n3,4\n"
        self.assertEqual(self.made(text, "--skip", "2", "--comment", "#"), "# a,b\n1,2\n3,4\n")
        self.assertEqual(self.refused("x\na\n1\nz\n", "--skip", "1"), "line 4, column 1 (a): 'z' isn't a number")

    def test_missing(self):
        text = "t,a,b\n0,1,5\n1,,NaN\n2,n/a,7\n"
        self.assertIn("line 3, column 2 (a): an empty field", self.refused(text))
        self.assertIn("'NaN' isn't a number", self.refused(text, "--hold"))
        self.assertEqual(self.made(text, "--missing", "hold"), "# t,a,b\n0,1,5\n1,1,5\n2,1,7\n")
        self.assertEqual(self.made(text, "--missing", "a=-1", "--missing", "b=hold"), "# t,a,b\n0,1,5\n1,-1,5\n2,-1,7\n")
        self.assertEqual(self.made(text, "--missing", "9", "--missing", "b=hold"), "# t,a,b\n0,1,5\n1,9,5\n2,9,7\n")
        self.assertEqual(self.made(text, "--missing", "skip", remarks="trace: 2 lines left out for fields without a value\n"), "# t,a,b\n0,1,5\n")
        self.assertEqual(self.refused(text, "--missing", "refuse"), "line 3, column 2 (a): an empty field")
        self.assertEqual(self.refused("a\nNaN\n", "--missing", "refuse"), "line 2, column 1 (a): 'NaN' is no value")
        self.assertEqual(self.made("a\nnone\n1\n", "--missing", "0", "--map", "a=none:7,1:1"), "# a\n7\n1\n")
        for words in (["--missing", "maybe"], ["--missing", "z=0"], ["--missing", "0", "--missing", "1"]):
            self.refused(text, *words, status=2)


class Lists(Telemetry):
    WORDS = ["--time", "t", "--rate", "10", "--long", "n,v"]

    def test_long_form(self):
        text = "t,n,v\n0,alt,5\n0,up,1\n0.1,alt,7\n0.1,other,x\n0.3,up,0\n"
        self.assertEqual(self.made(text, *self.WORDS, "--columns", "alt,up"), "# alt,up\n5,1\n7,1\n7,1\n7,0\n")
        self.assertEqual(self.made(text, *self.WORDS, "--spec", self.file("s", SPEC), "--stamps"), "# alt,up\n@0,5,1\n@1,7,1\n@3,7,0\n")

    def test_names_with_blanks(self):
        text = 't,n,v\n0,"Bus V",5\n0.1,Bus V,6\n'
        self.assertEqual(self.made(text, *self.WORDS, "--columns", "volts", "--rename", "Bus V=volts"), "# volts\n5\n6\n")

    def test_a_name_without_a_value_yet(self):
        text = "t,n,v\n0,alt,5\n0.1,up,1\n"
        self.assertEqual(self.refused(text, *self.WORDS, "--columns", "alt,up"), "line 2 (up): no value yet: --missing up=0 gives one, --start begins later")
        self.assertEqual(self.made(text, *self.WORDS, "--columns", "alt,up", "--missing", "up=0"), "# alt,up\n5,0\n5,1\n")

    def test_values_that_are_replaced_are_counted(self):
        text = "t,n,v\n0,alt,5\n0,alt,6\n0.1,alt,7\n"
        told = "trace: 1 value of alt: later ones of the same row replace them\n"
        self.assertEqual(self.made(text, *self.WORDS, "--columns", "alt", remarks=told), "# alt\n6\n7\n")
        self.assertEqual(self.made(text, *self.WORDS, "--columns", "alt", "--within", "alt=max"), "# alt\n6\n7\n")

    def test_faults(self):
        self.assertEqual(self.refused("t,n,v\n0,alt\n", *self.WORDS, "--columns", "alt"), "line 2: 2 fields, where 3 columns have names")
        self.assertEqual(self.refused("t,n,v\n0,alt,x\n", *self.WORDS, "--columns", "alt"), "line 2 (alt): 'x' isn't a number")
        self.assertEqual(self.refused("t,n\n0,alt\n", *self.WORDS, "--columns", "alt"), "line 1: no column v (it has t, n)")
        self.refused("t,n,v\n", *self.WORDS, status=2)


class Within(Telemetry):
    def test_each_way(self):
        text = "t,a\n0,0\n0.01,4\n0.05,9\n0.09,2\n0.1,3\n0.2,3\n"
        words = ["--time", "t", "--rate", "10", "--hold"]
        for how, row in (("max", "9"), ("min", "2"), ("first", "4"), ("last", "3")):
            status, out, _ = tool("trace", *words, "--within", f"a={how}", give=text)
            self.assertEqual((status, out), (0, f"# a\n0\n{row}\n3\n"))

    def test_a_pulse_between_two_rows(self):
        """By default the last value counts, and the pulse is lost; `any` keeps it, and what holds after it is the last value."""
        text = "t,e\n0,0\n0.01,1\n0.02,0\n0.3,0\n"
        words = ["--time", "t", "--rate", "10", "--hold"]
        self.assertEqual(tool("trace", *words, give=text)[1], "# e\n0\n0\n0\n0\n")
        self.assertEqual(tool("trace", *words, "--within", "e=any", give=text)[1], "# e\n0\n1\n0\n0\n")
        text = "t,e\n0,1\n0.01,0\n0.02,1\n0.1,1\n0.2,1\n"
        self.assertEqual(tool("trace", *words, "--within", "e=all", give=text)[1], "# e\n1\n0\n1\n")

    def test_faults(self):
        spec = self.file("spec", SPEC)
        for words in (["--within", "a=most"], ["--within", "z=any"], ["--within", "a"]):
            self.refused("t,a\n0,1\n", "--time", "t", "--rate", "1", *words, status=2)
        self.refused("t,alt,up\n0,1,1\n", "--spec", spec, "--time", "t", "--rate", "1", "--within", "alt=any", status=2)
        self.refused("a\n1\n", "--within", "a=max", status=2)


class Objects(Telemetry):
    def test_json_lines(self):
        text = '{"t": 0, "a": {"x": 1.50, "ok": true}, "l": [7]}\n\n{"t": 1, "a": {"x": "2", "ok": false}, "l": [8]}\n'
        words = ["--scale", "x=2", "--rename", "a.x=x", "--rename", "a.ok=ok", "--rename", "l.0=l", "--time", "t", "--rate", "1"]
        self.assertEqual(self.made(text, *words, name="x.jsonl"), "# x,ok,l\n3,1,7\n4,0,8\n")
        self.assertEqual(self.made(text, *words, "--format", "json"), "# x,ok,l\n3,1,7\n4,0,8\n")

    def test_null_and_absent_members(self):
        text = '{"alt": 1}\n{"up": true, "alt": null}\n'
        spec = self.file("spec", SPEC)
        self.assertIn("line 1, column 2 (up): an empty field", self.refused(text, "--spec", spec, name="x.ndjson"))
        self.assertEqual(self.made(text, "--spec", spec, "--missing", "0", name="x.ndjson"), "# alt,up\n1,0\n0,1\n")

    def test_numbers_are_exact(self):
        text = '{"a": 0.12345678901234567890}\n'
        self.assertEqual(self.made(text, "--scale", "a=1e20", "--format", "json", "--scale", "a=1e8", "--round", "a",
                                   remarks="trace: 1 value of a is rounded\n"), "# a\n12345679\n")

    def test_long_form_of_objects(self):
        text = '{"t": 0, "n": "alt", "v": 5}\n{"t": 0, "n": "up", "v": true}\n{"t": 0.1, "n": "alt", "v": 6}\n'
        words = ["--time", "t", "--rate", "10", "--long", "n,v", "--spec", self.file("s", SPEC)]
        self.assertEqual(self.made(text, *words, name="x.jsonl"), "# alt,up\n5,1\n6,1\n")

    def test_faults(self):
        for text, said in (
            ("[1]\n", "line 1: '[1]' isn't an object"), ("{\n", "line 1: not JSON: "), ("", "no object"), ('{"a": NaN}\n', "line 1, column 1 (a): 'NaN' isn't a number"),
            ('{"a": 1}\n' + "[" * 100000 + "\n", "line 2: not JSON: "), ('{"a": 1}\n{"b": 1}\n', "line 2, column 1 (a): an empty field"),
        ):
            self.assertIn(said, self.refused(text, name="x.json"))


class Dumps(Telemetry):
    def test_a_dump(self):
        words = ["--rate", "10", "--missing", "hold", "--scale", "volts=100"]
        out = self.made(DUMP, *words, "--columns", "up,alt,low,volts", name="d.vcd")
        self.assertEqual(out, "# up,alt,low,volts\n1,-1,10,125\n0,-1,10,125\n0,-1,10,125\n0,5,10,125\n")

    def test_faults(self):
        words = ["--rate", "10", "--scale", "volts=100"]
        self.assertEqual(self.refused(DUMP, *words, name="d.vcd"), "line 19 (up): 'x' is no value: --hold takes the last value")
        for old, new, said in (
            ("10 ms", "7 ms", "line 3: '7 ms' isn't a time scale"), ("b101 #", "b102 #", "'b102' isn't a value of a dump"),
            ("b101 #", "b101 ?", "no $var has '?'"), ("#30", "#x", "'#x' isn't a time of a dump"), ("$enddefinitions $end", "", "line 13: '#0' isn't an item"),
            ("$var wire 1 ! up $end", "$var wire $end", "not a $var"),
        ):
            self.assertIn(said, self.refused(DUMP.replace(old, new), *words, "--missing", "hold", name="d.vcd"))
        self.refused(DUMP, "--columns", "up", name="d.vcd", status=2)


class Files(Telemetry):
    def test_merged_by_time(self):
        """Against a plain reading: each row has the last value of each file at or before it."""
        rng = random.Random(5)
        times = [sorted(rng.sample(range(1, 2000), 30)) for _ in range(3)]
        values = [{0: 7, **{t: rng.randint(-9, 9) for t in some}} for some in times]
        paths = [self.file(f"f{k}.csv", f"t,v{k}\n" + "".join(f"{t / 1000:.3f},{v}\n" for t, v in kept.items())) for k, kept in enumerate(values)]
        status, out, _ = tool("trace", "--time", "t", "--rate", "10", "--hold", *paths)
        self.assertEqual(status, 0)
        count = -(-max(map(max, times)) // 100) + 1
        plain = [",".join(str(kept[max(t for t in kept if t <= 100 * k)]) for kept in values) for k in range(count)]
        self.assertEqual(out.split("\n")[1:-1], plain)

    def test_names_and_forms(self):
        one = self.file("one.csv", "when,alt\n2026-01-01T00:00:00Z,5\n2026-01-01T00:00:02Z,6\n")
        two = self.file("two.jsonl", '{"time": "2026-01-01T00:00:00Z", "up": false}\n{"time": "2026-01-01T00:00:01Z", "up": true}\n')
        words = ["--time", "time", "--rename", "when=time", "--rate", "1", "--spec", self.file("s", SPEC)]
        status, out, errors = tool("trace", *words, one, two)
        self.assertEqual((status, out, errors), (0, "# alt,up\n5,0\n5,1\n6,1\n", ""))

    def test_faults(self):
        one, two = self.file("one.csv", "t,a\n0,1\n1,x\n"), self.file("two.csv", "t,b\n0,1\n")
        words = ["--time", "t", "--rate", "1"]
        status, _, errors = tool("trace", *words, one, two)
        self.assertEqual((status, errors), (1, f"trace: line 3 of {one} (a): 'x' isn't a number\n"))
        status, _, errors = tool("trace", *words, two, self.file("three.csv", "s,c\n0,1\n"))
        self.assertEqual((status, errors), (1, f"trace: {self.folder}/three.csv: no column t, asked for by --time\n"))
        self.assertEqual(tool("trace", one, two)[0], 2)
        self.assertEqual(tool("trace", *words, "-", "-")[0], 2)
        self.assertIn("two columns b", tool("trace", *words, two, self.file("four.csv", "t,b\n0,1\n"))[2])
