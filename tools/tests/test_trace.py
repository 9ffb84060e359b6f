"""tools/trace: what is converted, what is refused and where, times, and pipes."""

import decimal
import random
import subprocess
import sys

from support import TOOLS, Case, program, shell, spent, tool

SPEC = "INPUT volts: int; on: bool;\nFTSPEC f: on -> F[0,3] volts > 5;\n"


class Traces(Case):
    def made(self, text, *words):
        status, out, errors = tool("trace", *words, self.file("in.csv", text))
        self.assertEqual((status, errors), (0, ""))
        return out

    def refused(self, text, *words, wanted=1):
        """The message of a file that can't be converted, without the names of tool and file."""
        path = self.file("in.csv", text)
        status, _, errors = tool("trace", *words, path)
        self.one_line(errors)
        self.assertEqual(status, wanted, errors)
        self.assertTrue(errors.startswith(f"trace: {path}: "), errors)
        return errors.removeprefix(f"trace: {path}: ").rstrip("\n")

    def misused(self, *words, give="a\n1\n"):
        status, out, errors = tool("trace", *words, give=give)
        self.one_line(errors)
        self.assertEqual((status, out), (2, ""))
        return errors


class Fields(Traces):
    def test_headers(self):
        for head in ("a,b", "# a,b", "#a,b", ' "a", b ', "\ufeffa,b", "\ufeff# a,b", '# "a","b"'):
            self.assertEqual(self.made(f"{head}\n1,2\n"), "# a,b\n1,2\n", head)
        self.assertEqual(self.made("1,2\r\n3,4", "--names", "a,b"), "# a,b\n1,2\n3,4\n")

    def test_fields(self):
        self.assertEqual(self.made('a,b\n"1", true\n\n+7,FALSE\n-5,0\n'), "# a,b\n1,1\n7,0\n-5,0\n")
        self.assertEqual(self.made("a;b\n1;2\n", "--delimiter", ";"), "# a,b\n1,2\n")
        self.assertEqual(self.made("a\tb\n1\t2\n", "--delimiter", "tab"), "# a,b\n1,2\n")
        self.assertEqual(self.made("a\n3.0\n12e2\n5.00e-0\n007\n"), "# a\n3\n1200\n5\n7\n")

    def test_scale(self):
        self.assertEqual(self.made("volts\n28.125\n-0.001\n.5\n4.\n", "--scale", "volts=1000"), "# volts\n28125\n-1\n500\n4000\n")
        self.assertEqual(self.made("ms\n1500\n", "--scale", "ms=0.002"), "# ms\n3\n")

    def test_scale_is_exact(self):
        decimal.getcontext().prec = 60
        rng = random.Random(1)
        texts = [f"{rng.randint(-2000, 2000)}.{rng.randint(0, 999):03}" for _ in range(2000)]
        out = self.made("\n".join(["a", *texts, ""]), "--scale", "a=1000")
        self.assertEqual(out.split("\n")[1:-1], [str(int(decimal.Decimal(text) * 1000)) for text in texts])
        for text in ("0.1234567890123456789012345678901234567891", "1.0000000000000000000000000000000000001"):
            self.assertIn("isn't whole", self.refused(f"a\n{text}\n", "--scale", "a=1000"))

    def test_map(self):
        words = ["--map", "mode=SAFE:0,NOMINAL:1,a:b:2"]
        self.assertEqual(self.made("mode\nSAFE\nNOMINAL\na:b\n", *words), "# mode\n0\n1\n2\n")
        self.assertEqual(self.refused("x,mode\n1,OFF\n", *words), "line 2, column 2 (mode): 'OFF' is in no --map of the column")

    def test_round(self):
        path = self.file("in.csv", "a,b\n0.5,1\n-0.5,1\n2.4,1\n3,1\n")
        status, out, errors = tool("trace", "--round", "a", path)
        self.assertEqual((status, out, errors), (0, "# a,b\n1,1\n-1,1\n2,1\n3,1\n", "trace: 3 values of a are rounded\n"))

    def test_columns_of_a_specification(self):
        spec = self.file("spec", SPEC)
        self.assertEqual(self.made("t,on,volts\nx,true,5\n", "--spec", spec), "# volts,on\n5,1\n")
        self.assertEqual(self.made("Bus V,ON\n5,0\n", "--spec", spec, "--rename", "Bus V=volts", "--rename", "ON=on"), "# volts,on\n5,0\n")
        self.assertEqual(self.made("b,a,c\n1,2,x\n", "--columns", "a,b"), "# a,b\n2,1\n")


class Refusals(Traces):
    def test_values(self):
        for field, why in (
            ("1.5", "1.5 isn't whole: --scale or --round"),
            ("2147483648", "2147483648 is out of range: a number has 32 bits"),
            ("0x1f", "'0x1f' isn't a number"),
            ("nan", "'nan' isn't a number"),
            ("1,5", None),
            ("1e99", "1" + "0" * 99 + " is out of range: a number has 32 bits"),
            ("1e9999", "'1e9999' isn't a number"),
            ("", "an empty field: --hold takes the last value"),
            ("3 4", "'3 4' isn't a number"),
            ("9" * 500, "'" + "9" * 40 + "...' isn't a number"),
        ):
            if why:
                self.assertEqual(self.refused(f"x,a\n1,1\n1,{field}\n"), f"line 3, column 2 (a): {why}")
            else:
                self.assertEqual(self.refused(f"x,a\n1,{field}\n"), "line 2: 3 fields, where 2 columns have names")

    def test_kinds(self):
        spec = self.file("spec", SPEC)
        self.assertEqual(self.refused("on,volts\n2,1\n", "--spec", spec), "line 2, column 1 (on): 2 isn't a Boolean: the input is bool")
        self.assertEqual(self.refused("on,volts\n1,true\n", "--spec", spec), "line 2, column 2 (volts): 'true' isn't a number: the input is int")

    def test_lines(self):
        self.assertEqual(self.refused("a,b\n1,2\n1\n"), "line 3: 1 fields, where 2 columns have names")
        self.assertEqual(self.refused('a,b\n1,2\n1,"x\n'), "line 3: unexpected end of data")
        self.assertEqual(self.refused('a,b\n"1\n",2\n1,x\n'), "line 4, column 2 (b): 'x' isn't a number")
        self.assertEqual(self.refused(b"a\n1\n\xff\n", wanted=2), "line 3, byte 1: not UTF-8")
        self.assertEqual(self.refused("a\n1\n".encode("utf-16"), wanted=2), "line 1: a text of 16 bits a letter: make it UTF-8 first")
        self.assertEqual(self.refused(""), "no line with the names of the columns")
        self.assertEqual(self.refused("x" * 2000000), "line 1: longer than 1048576 bytes")

    def test_columns(self):
        spec = self.file("spec", SPEC)
        self.assertEqual(self.refused("a,on\n1,1\n", "--spec", spec), "line 1: no column volts, asked for by --spec (it has a, on)")
        self.assertEqual(self.refused("on,volts,on\n1,1,1\n", "--spec", spec), "line 1: two columns on")
        self.assertEqual(self.refused('"a,b",c\n1,1\n'), "line 1, column 1: 'a,b' can't name a column: --rename")

    def test_words(self):
        for words in (
            ["--scale", "a"],
            ["--scale", "a=0"],
            ["--scale", "b=2"],
            ["--map", "a=X"],
            ["--map", "a=X:1,X:2"],
            ["--map", "a=X:1", "--scale", "a=2"],
            ["--time", "a"],
            ["--stamps"],
            ["--rename", "z=y"],
            ["--delimiter", ",,"],
            ["--spec", "x", "--columns", "a"],
            ["--nonsense"],
            ["no/such/file"],
            ["--spec", "no/such/file"],
            ["-o", "no/such/file"],
        ):
            self.misused(*words)
        self.assertEqual(tool("trace", "--help")[0], 0)

    def test_a_file_is_left_as_it_was(self):
        out = self.file("out.csv", "before")
        self.refused("a\n1\nx\n", "-o", out)
        self.assertEqual(out.read_text(), "before")
        self.assertEqual(sorted(path.name for path in self.folder.iterdir()), ["in.csv", "out.csv"])
        self.made("a\n1\n", "-o", out)
        self.assertEqual(out.read_text(), "# a\n1\n")


class Times(Traces):
    WORDS = ["--time", "t", "--rate", "10"]

    def test_rows(self):
        self.assertEqual(self.made("t,a\n5.0,1\n5.1,2\n5.4,3\n", *self.WORDS), "# a\n1\n2\n2\n2\n3\n")
        self.assertEqual(self.made("a,t\n1,0\n2,300\n", *self.WORDS, "--scale", "t=0.001"), "# a\n1\n1\n1\n2\n")
        self.assertEqual(self.made("t,a\n1,7\n", *self.WORDS, "--start", "1"), "# a\n7\n")

    def test_stamps(self):
        self.assertEqual(self.made("t,a\n5.0,1\n5.1,2\n5.4,3\n", *self.WORDS, "--stamps"), "# a\n@0,1\n@1,2\n@4,3\n")

    def test_a_long_gap(self):
        text = "t,a\n0,1\n30000,2\n"
        self.assertEqual(self.made(text, *self.WORDS, "--stamps"), "# a\n@0,1\n@300000,2\n")
        self.assertEqual(self.made(text, *self.WORDS).count("\n"), 300002)
        self.assertIn("--stamps", self.refused("t,a\n0,1\n3e8,2\n", *self.WORDS))
        status, _, errors = tool("trace", *self.WORDS, "--stamps", give="t,a\n0,1\n3e8,2\n")
        self.assertEqual((status, errors), (0, "trace: the last time is 3000000000: r2u2 --timed needs --mission-time 3000000001\n"))

    def test_refused(self):
        head = "line 3, column 1 (t): "
        self.assertEqual(self.refused("t,a\n1,1\n0.9,2\n", *self.WORDS), head + "time has to rise: '0.9' is before that of line 2")
        self.assertEqual(self.refused("t,a\n1,1\n1.0,2\n", *self.WORDS), head + "time has to rise: '1.0' is also that of line 2")
        self.assertEqual(self.refused("t,a\n1,1\n1.25,2\n", *self.WORDS), head + "'1.25' is between two rows, at 2.5: --hold counts it from the next row on, --snap from the nearest")
        self.assertEqual(self.refused("t,a\n1,1\nsoon,2\n", *self.WORDS), head + "'soon' is no time in seconds")
        self.assertEqual(self.refused("t,a\n1,1\n0.9,2\n", *self.WORDS, "--hold"), head + "time has to rise: '0.9' is before that of line 2")
        first = "line 2, column 1 (t): "
        self.assertEqual(self.refused("t,a\n1,1\n", *self.WORDS, "--start", "0"), first + "the first time is after --start")
        self.assertEqual(self.refused("t,a\n1,1\n", *self.WORDS, "--start", "2"), first + "'1' is before --start: --hold counts it from the next row on")

    def test_hold(self):
        path = self.file("in.csv", "t,a,b\n0,1,\n")
        self.assertIn("column 3 (b): no value yet", tool("trace", "--hold", path)[2])
        path = self.file("in.csv", "t,a,b\n0,1,5\n0.02,2,\n0.05,,6\n0.25,4,\n")
        status, out, errors = tool("trace", *self.WORDS, "--hold", path)
        self.assertEqual((status, out), (0, "# a,b\n1,5\n2,6\n2,6\n4,6\n"))
        late = "trace: 3 times between two rows: they count from the next row on\n"
        self.assertEqual(errors, late + "trace: 1 line is in no row, as a later one has it; the first is line 3\n")
        self.assertEqual(tool("trace", *self.WORDS, "--hold", "--stamps", path)[1], "# a,b\n@0,1,5\n@1,2,6\n@3,4,6\n")

    def told_of(self, text, *words):
        status, out, errors = tool("trace", *self.WORDS, *words, give=text)
        self.assertEqual(status, 0, errors)
        return out, errors

    def test_binary_fractions(self):
        """Times as Python prints 0.1 * k: each line has its row, with and without --hold."""
        text = "t,a\n" + "".join(f"{0.1 * k},{k}\n" for k in range(1000))
        for words in ([], ["--hold"]):
            out, errors = self.told_of(text, *words)
            self.assertEqual(out.split()[2:], [str(k) for k in range(1000)])
            self.assertRegex(errors, r"^trace: \d+ times aren't exactly those of their rows; the furthest is off by [\d.e-]+ s, in line \d+\n$")
        self.assertIn("between two rows, at 3.0000000000000004", self.refused(text, *self.WORDS, "--snap", "0"))

    def test_jitter(self):
        """The nearest row within --snap; what is further off is refused, or counts from the next row on."""
        rng = random.Random(3)
        text = "t,a\n0,0\n" + "".join(f"{k / 10 + rng.randint(-40, 40) / 1000:.3f},{k}\n" for k in range(1, 500))
        out, errors = self.told_of(text, "--snap", "0.04")
        self.assertEqual(out.split()[2:], [str(k) for k in range(500)])
        self.assertIn("the furthest is off by 0.04 s", errors)
        self.assertIn("--snap from the nearest", self.refused("t,a\n0,0\n0.16,1\n", *self.WORDS, "--snap", "0.03"))
        out, errors = self.told_of("t,a\n0,0\n0.16,1\n", "--snap", "0.03", "--hold")
        self.assertEqual((out, errors), ("# a\n0\n0\n1\n", "trace: 1 time between two rows: it counts from the next row on\n"))
        self.assertIn("the row of line 3 too", self.refused("t,a\n0,0\n0.09,1\n0.11,2\n", *self.WORDS, "--snap", "0.03"))

    def test_rates_that_are_quotients(self):
        text = "t,a\n" + "".join(f"{k * 1001},{k}\n" for k in range(100))
        words = ["--time", "t", "--rate", "30000/1001", "--scale", "t=1/30000"]
        self.assertEqual(self.made(text, *words).split()[2:], [str(k) for k in range(100)])
        for rate in ("1/0", "/3", "3/", "0/1", "1/2/3"):
            status, _, errors = tool("trace", "--time", "t", "--rate", rate, give="t,a\n0,1\n")
            self.assertEqual(status, 2, errors)
            self.one_line(errors)

    def test_hold_before_the_start(self):
        path = self.file("in.csv", "t,a\n1,1\n2,2\n2.1,3\n")
        self.assertEqual(tool("trace", *self.WORDS, "--hold", "--start", "2", path)[1], "# a\n2\n3\n")

    def test_against_a_plain_reading(self):
        """Row k holds the last line at or before its time; row 0 is at the first multiple of 0.1 s from the first line on."""
        rng = random.Random(7)
        for _ in range(20):
            times = sorted(rng.randint(0, 3000) for _ in range(40))
            lines = [(time, rng.randint(-99, 99)) for time in times]
            text = "t,a\n" + "".join(f"{time / 1000:.3f},{value}\n" for time, value in lines)
            told = tool("trace", *self.WORDS, "--hold", give=text)[1].split()[2:]
            first = -(-times[0] // 100) * 100
            count = max(0, -(-(times[-1] - first) // 100)) + 1
            plain = [[value for time, value in lines if time <= first + 100 * k][-1] for k in range(count)]
            self.assertEqual(told, [str(value) for value in plain])


class Pipes(Traces):
    def test_rows_come_at_once(self):
        for words in ([], ["--time", "t", "--rate", "1"]):
            child = subprocess.Popen(
                [sys.executable, str(TOOLS / "trace"), *words], stdin=subprocess.PIPE, stdout=subprocess.PIPE, encoding="utf-8"
            )
            self.addCleanup(child.stdout.close)
            for k in range(3):
                child.stdin.write("t,a\n0,1\n" if k == 0 else f"{k},{k + 1}\n")
                child.stdin.flush()
                self.assertIn(child.stdout.readline(), ("# a\n", "# t,a\n") if k == 0 else (f"{k}\n", f"{k - 1},{k}\n"))
            child.stdin.close()
            self.assertEqual(child.wait(), 0)

    def test_closed_pipe(self):
        made = "print('a'); [print(k) for k in range(200000)]"
        line = f'{sys.executable} -c "$MADE" 2>/dev/null | ("$TOOLS/trace"; echo "ended $?" >&2) | head -2'
        _, out, errors = shell(line, MADE=made)
        self.assertEqual((out, errors), ("# a\n0\n", "ended 141\n"))

    def test_many_lines(self):
        made = "print('t,a,b'); [print(f'{k/10},{k%7}.25,true') for k in range(200000)]"
        before = spent()
        line = f'{sys.executable} -c "$MADE" | "$TOOLS/trace" --time t --rate 10 --scale a=100 | tail -1'
        self.assertEqual(shell(line, MADE=made), (0, f"{199999 % 7}25,1\n", ""))
        self.assertLess(spent() - before, 60)

    def test_into_r2u2(self):
        line = 'printf "t,on,volts\\n0,true,5.5\\n0.1,0,6\\n" | "$TOOLS/trace" --spec "$SPEC" --scale volts=10 | "$R2U2" --source "$SPEC"'
        status, out, errors = shell(line, SPEC=self.file("spec", SPEC), R2U2=program("r2u2"))
        self.assertEqual((status, out, errors), (0, "f:0,T\nf:1,T\n", ""))
        line = line.replace("--scale", "--time t --rate 5 --stamps --hold --scale") + " --timed"
        self.assertEqual(shell(line, SPEC=self.file("spec", SPEC), R2U2=program("r2u2"))[0], 0)
