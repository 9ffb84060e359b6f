"""tools/verdicts: counts, forms, codes, streams, left sides, differences and many logs."""

import json
import os
import pty
import subprocess
import sys
import xml.etree.ElementTree as ElementTree

from support import ROOT, TOOLS, Case, program, shell, spent, tool

from r2u2tools.common import specs
from r2u2tools.verdicts.left_sides import sides_of, watched

GRANTED = "granted:0,T\ngranted:1,T\ngranted:2,F\ngranted:3,T\ngranted:4,T\ngranted:5,T\n"
RUNS = "granted:1,T\ngranted:2,F\ngranted:5,T\n"
AGC = "agc:0,inactive\nagc:1,verified\nagc:2,invalid\nagc:4,inactive\n"


class Counts(Case):
    def test_table(self):
        status, out, errors = tool("verdicts", give=GRANTED + AGC)
        self.assertEqual((status, errors), (1, ""))
        self.assertEqual(
            [line.split() for line in out.splitlines()],
            [
                "output T F inactive invalid verified first F or invalid stretches longest last decided undecided".split(),
                "granted 5 1 0 0 0 F at 2 1 1 2 to 5 -".split(),
                "agc 0 0 3 1 1 invalid at 2 1 1 2 to 4 1".split(),
            ],
        )

    def test_both_styles_tell_the_same(self):
        self.assertEqual(tool("verdicts", give=GRANTED)[1], tool("verdicts", give=RUNS)[1])

    def test_json(self):
        status, out, _ = tool("verdicts", "--json", "--log", "one", give=GRANTED)
        told = json.loads(out)
        self.assertEqual((status, told["status"], told["lines"], told["log"]), (1, 1, 6, "one"))
        self.assertEqual(told["outputs"][0]["words"], {"T": 5, "F": 1})
        self.assertEqual(told["outputs"][0]["first"], {"time": 2, "word": "F", "log": "one"})
        self.assertEqual(told["outputs"][0]["decided"], 6)

    def test_events(self):
        """Stretches go on from line to line, in both styles; the longest and the last are shown next to the counts."""
        lines = "f:0,F\nf:3,T\nf:4,F\nf:7,F\nf:8,T\nf:10,F\nf:12,T\n"
        rows = tool("verdicts", give=lines)[1].splitlines()
        self.assertEqual(rows[1].split(), "f 6 7 F at 0 3 4 9 to 10 to 12".split())
        told = json.loads(tool("verdicts", "--json", give=lines)[1])["outputs"][0]
        self.assertEqual((told["stretches"], told["longest"]["from"], told["longest"]["to"]), (3, 4, 7))
        self.assertEqual((told["last"]["from"], told["last"]["to"]), (9, 10))

    def test_junit(self):
        status, out, _ = tool("verdicts", "--junit", "--ignore", "agc", give=GRANTED + AGC + "low:3,T\n")
        suite = ElementTree.fromstring(out)[0]
        self.assertEqual((status, suite.get("tests"), suite.get("failures"), suite.get("skipped")), (1, "3", "1", "1"))
        self.assertEqual([[part.tag for part in test] for test in suite], [["failure"], ["skipped"], []])
        self.assertEqual(suite[0][0].get("message"), "granted: F at 2")
        self.assertEqual(suite[0][0].text.splitlines()[0], "T 5, F 1")

    def test_ignore(self):
        self.assertEqual(tool("verdicts", "--ignore", "granted", give=GRANTED)[0], 0)
        self.assertEqual(tool("verdicts", "--ignore", "granted", give=GRANTED + AGC)[0], 1)
        status, _, errors = tool("verdicts", "--ignore", "grant", give=GRANTED)
        self.assertEqual((status, errors), (2, "verdicts: no output grant, which is to be ignored (did you mean granted?)\n"))
        self.assertEqual(tool("verdicts", "--ignore", "granted", "--spec", ROOT / "examples/grant.c2po", give="")[0], 1)

    def test_tap_and_github(self):
        words = ["--spec", ROOT / "examples/grant.c2po", "--ignore", "agc"]
        status, out, errors = tool("verdicts", "--tap", *words, give=GRANTED + AGC + "low:3,T\n")
        lines = ["TAP version 13", "1..3", "not ok 1 - granted # granted: F at 2", "ok 2 - agc # SKIP ignored: agc: invalid at 2", "ok 3 - low"]
        self.assertEqual((status, out.splitlines(), errors), (1, lines, ""))
        status, out, errors = tool("verdicts", "--github", *words, give=GRANTED + AGC)
        self.assertEqual((status, errors), (1, ""))
        self.assertEqual(out, f"::error file={ROOT / 'examples/grant.c2po'},line=3,title=granted::granted: F at 2\n")
        self.assertEqual(tool("verdicts", "--github", give="f:0,T\n"), (0, "", ""))
        suite = ElementTree.fromstring(tool("verdicts", "--junit", *words, give=GRANTED + AGC)[1])[0]
        self.assertEqual([test.get("line") for test in suite], ["3", None])

    def test_outputs_without_a_line(self):
        status, out, _ = tool("verdicts", "--spec", ROOT / "examples/valves.c2po", give="shut:0,T\n")
        self.assertEqual(status, 1)
        self.assertEqual([line.split()[0] for line in out.splitlines()], ["output", "filling", "shut", "filling"])
        self.assertIn("nothing yet", out)
        self.assertEqual(out.splitlines()[-1], "filling has no verdict")
        words = ["--ignore", "filling", "--spec", ROOT / "examples/valves.c2po"]
        self.assertEqual(tool("verdicts", *words, give="shut:0,T\n")[0], 0)

    def test_nothing(self):
        for words in ([], ["--json"], ["--junit"], ["--spec", ROOT / "examples/valves.c2po"]):
            self.assertEqual(tool("verdicts", *words, give="")[::2], (1, ""), words)
        self.assertEqual(tool("verdicts", give="")[1].splitlines()[-1], "no verdict")
        suite = ElementTree.fromstring(tool("verdicts", "--junit", give="")[1])[0]
        self.assertEqual((suite.get("tests"), suite.get("failures")), ("1", "1"))

    def test_a_run_that_prints_nothing(self):
        status, out, errors = tool("verdicts", "--", "true")
        self.assertEqual((status, out.splitlines()[-1], errors), (1, "no verdict", ""))

    def test_a_missing_file_in_a_pipe(self):
        line = 'cat "$NONE" 2>/dev/null | "$TOOLS/verdicts" > /dev/null; exit ${PIPESTATUS[1]}'
        self.assertEqual(shell(line, NONE=self.folder / "none"), (1, "", ""))

    def test_fail_undecided(self):
        self.assertEqual(tool("verdicts", "--fail-undecided", give="f:2,T\ng:2,T\n")[0], 0)
        status, out, _ = tool("verdicts", "--fail-undecided", give="f:2,T\ng:5,T\n")
        self.assertEqual((status, out.splitlines()[1].split()), (1, "f 3 - to 2 3".split()))
        self.assertEqual(tool("verdicts", "--fail-undecided", "--ignore", "f", give="f:2,T\ng:5,T\n")[0], 0)
        self.assertEqual(tool("verdicts", give="f:2,T\ng:5,T\n")[0], 0)

    def test_fail_untried(self):
        lines = "c:3,inactive\n"
        self.assertEqual(tool("verdicts", "--exercised", give=lines)[0], 0)
        status, out, _ = tool("verdicts", "--exercised", "--fail-untried", give=lines)
        self.assertEqual((status, out.splitlines()[-1]), (1, "c was never tried: its left side was never true"))
        kept = self.file("kept.json", tool("verdicts", "--exercised", "--json", give=lines)[1])
        self.assertEqual(tool("verdicts", "--merge", "--fail-untried", kept)[0], 1)
        self.assertEqual(tool("verdicts", "--merge", kept)[0], 0)
        failure = ElementTree.fromstring(tool("verdicts", "--merge", "--junit", "--fail-untried", kept)[1])[0][0][0]
        self.assertEqual((failure.tag, failure.get("message")), ("failure", "c: never tried: its left side was never true"))


class Faults(Case):
    def told(self, *words, give=""):
        status, out, errors = tool("verdicts", *words, give=give)
        self.assertEqual((status, out), (2, ""))
        self.one_line(errors)
        return errors

    def test_lines(self):
        self.assertEqual(self.told(give="f:0,T\nf=1\n"), "verdicts: line 2: not a verdict line: f=1\n")
        self.assertEqual(self.told(give="f:1,T\nf:1,T\n"), "verdicts: line 2: time 1 of f comes twice\n")
        self.assertEqual(self.told(give="f:0,T\n\n"), "verdicts: line 2: not a verdict line: an empty line\n")
        self.assertEqual(self.told(give="x" * 1000000), "verdicts: line 1: longer than 128 bytes\n")

    def test_files(self):
        self.assertEqual(self.told(self.folder / "no"), f"verdicts: cannot open {self.folder}/no: No such file or directory\n")
        self.assertEqual(self.told(self.folder), f"verdicts: cannot open {self.folder}: Is a directory\n")
        path = self.file("lines", "f:0,T\nf:0,F\n")
        self.assertEqual(self.told(path), f"verdicts: {path} line 2: time 0 of f comes twice\n")

    def test_words(self):
        for words in (["--nonsense"], ["--"], ["--merge"], ["a", "b"], ["--diff", "a", "--json"], ["--json", "--junit"]):
            self.told(*words)
        self.assertIn("--demo", self.told("--", "r2u2", "--demo", "1,2"))
        self.assertIn("runs r2u2 twice", self.told("--exercised", "--", "sh", "-c", "true"))
        self.assertIn("cannot run /no/such", self.told("--", "/no/such/program"))

    def test_help(self):
        status, out, errors = tool("verdicts", "--help")
        self.assertEqual((status, errors), (0, ""))
        self.assertIn("--exercised", out)


class Commands(Case):
    def test_code_and_message(self):
        path = self.file("lines", GRANTED)
        words = ["--", "sh", "-c", f"cat {path}; echo 'r2u2: trace line 7: too few fields' >&2; exit 4"]
        status, out, errors = tool("verdicts", *words)
        self.assertEqual((status, errors), (2, "r2u2: trace line 7: too few fields\n"))
        self.assertEqual(out.splitlines()[-1], "failed with 4: r2u2: trace line 7: too few fields")
        told = json.loads(tool("verdicts", "--json", *words)[1])
        self.assertEqual(told["failed"], [{"log": None, "code": 4, "message": "r2u2: trace line 7: too few fields"}])
        suite = ElementTree.fromstring(tool("verdicts", "--junit", *words)[1])[0]
        self.assertEqual((suite.get("errors"), suite.get("failures"), suite.get("tests")), ("1", "1", "2"))

    def test_a_command_without_a_fault(self):
        self.assertEqual(tool("verdicts", "--", "printf", RUNS)[0], 1)
        self.assertEqual(tool("verdicts", "--ignore", "granted", "--", "printf", RUNS)[0], 0)

    def test_killed(self):
        status, out, _ = tool("verdicts", "--", "sh", "-c", "kill -9 $$")
        self.assertEqual((status, out.splitlines()[-1]), (2, "failed with 137: killed by SIGKILL"))

    def test_lines_that_are_none(self):
        status, out, errors = tool("verdicts", "--", "sh", "-c", "echo hello; exec sleep 60")
        self.assertEqual((status, out, errors), (2, "", "verdicts: line 1: not a verdict line: hello\n"))


class Streams(Case):
    def test_pipe(self):
        status, out, errors = shell('printf "f:0,T\\nf:3,F" | "$TOOLS/verdicts"')
        self.assertEqual((status, errors), (1, ""))
        self.assertEqual(out.splitlines()[1].split(), "f 1 3 F at 1 1 3 1 to 3 to 3".split())

    def test_closed_pipe(self):
        line = '("$TOOLS/verdicts" --json "$LINES"; echo "ended $?" >&2) | true'
        errors = shell(line, LINES=self.file("lines", "".join(f"f{k}:0,T\n" for k in range(5000))))[2]
        self.assertRegex(errors, r"^ended (0|141)\n$")

    def test_many_lines_in_little_memory(self):
        made = "import sys\nfor k in range(2000000): sys.stdout.write(f'granted:{k},T\\n')"
        before = spent()
        line = f"{sys.executable} -c \"$MADE\" | /usr/bin/env {sys.executable} -c \"$LIMIT\" \"$TOOLS/verdicts\""
        limit = "import os,resource,sys; resource.setrlimit(resource.RLIMIT_DATA,(60<<20,60<<20)); os.execv(sys.argv[1],sys.argv[1:])"
        status, out, errors = shell(line, MADE=made, LIMIT=limit)
        self.assertEqual((status, errors), (0, ""))
        self.assertEqual(out.splitlines()[1].split(), "granted 2000000 - to 1999999".split())
        self.assertLess(spent() - before, 60)

    def test_progress_on_a_terminal(self):
        head, tail = pty.openpty()
        text = "".join(f"f:{k},T\n" for k in range(40000))
        words = [sys.executable, str(TOOLS / "verdicts"), str(self.file("lines", text))]
        ran = subprocess.run(words, stdout=subprocess.PIPE, stderr=tail, stdin=subprocess.DEVNULL)
        os.close(tail)
        told = os.read(head, 4096).decode()
        os.close(head)
        self.assertEqual(ran.returncode, 0)
        self.assertRegex(told, r"^\r[0-9,]+ lines, f to [0-9,]+\x1b\[K(.|\r)*\r\x1b\[K$")


class Diff(Case):
    def told(self, one, two):
        return tool("verdicts", "--diff", self.file("two", two), self.file("one", one))

    def test_the_same(self):
        self.assertEqual(self.told(GRANTED + AGC, AGC + RUNS), (0, "both have the same verdicts\n", ""))

    def test_parting(self):
        status, out, _ = self.told("f:2,T\nf:5,F\ng:3,T\n", "g:1,T\nf:0,T\nf:3,F\nf:8,T\n")
        paths = f"{self.folder}/one", f"{self.folder}/two"
        self.assertEqual(status, 1)
        self.assertEqual(
            out.splitlines(),
            [
                f"f at 1 to 2: T in {paths[0]}, F in {paths[1]}",
                f"f at 4 to 5: F in {paths[0]}, T in {paths[1]}",
                f"f is decided to 8 in {paths[1]}, to 5 in {paths[0]}",
                f"g is decided to 3 in {paths[0]}, to 1 in {paths[1]}",
            ],
        )

    def test_one_has_an_output_more(self):
        status, out, _ = self.told("f:2,T\n", "f:2,T\nh:1,F\n")
        self.assertEqual((status, out), (1, f"h is decided to 1 in {self.folder}/two, nowhere in {self.folder}/one\n"))

    def test_many_stretches(self):
        one = "".join(f"f:{k},{'TF'[k % 2]}\n" for k in range(100))
        status, out, _ = self.told(one, "f:99,T\n")
        self.assertEqual((status, len(out.splitlines())), (1, 11))
        self.assertIn("50 times in all", out)

    def test_on_pipes(self):
        line = '"$TOOLS/verdicts" --diff <(printf "f:0,T\\n") <(printf "f:0,F\\n")'
        self.assertEqual(shell(line)[0], 1)


class Merge(Case):
    def results(self, count):
        paths = []
        for k in range(count):
            lines = self.file("lines", f"f:{k},T\nf:{k + 1},{'F' if k % 10 == 3 else 'T'}\ng:0,T\n")
            out = tool("verdicts", "--json", "--log", f"log{k}", lines)[1] if k < 20 else None
            text = out or paths[k % 20].read_text().replace(f"log{k % 20}", f"log{k}")
            paths.append(self.file(f"result{k:04}.json", text))
        return paths

    def test_a_thousand(self):
        paths = self.results(1000)
        status, out, errors = tool("verdicts", "--merge", *paths)
        self.assertEqual((status, errors), (1, ""))
        rows = [line.split() for line in out.splitlines()]
        self.assertEqual(rows[0][-3:], ["logs", "with", "one"])
        self.assertEqual(rows[1][:2] + rows[1][-3:], ["f", str(sum(k % 20 + 2 for k in range(1000)) - 100), "100", "of", "1000"])
        self.assertIn("log3: F at 4", out)
        self.assertEqual(rows[-1], ["1000", "logs"])

    def test_merged_once_more(self):
        paths = self.results(12)
        half = [self.file(f"half{k}", tool("verdicts", "--merge", "--json", *paths[k::2])[1]) for k in (0, 1)]
        whole = json.loads(tool("verdicts", "--merge", "--json", *paths)[1])
        again = json.loads(tool("verdicts", "--merge", "--json", *half)[1])
        for key in ("logs", "lines", "status"):
            self.assertEqual(whole[key], again[key])
        self.assertEqual([it["words"] for it in whole["outputs"]], [it["words"] for it in again["outputs"]])

    def test_failed_and_unreadable(self):
        good = self.results(1)[0]
        failed = self.file("failed.json", tool("verdicts", "--json", "--log", "bad.csv", "--", "sh", "-c", "exit 4")[1])
        status, out, errors = tool("verdicts", "--merge", good, failed, self.file("empty.json", ""), self.folder / "none")
        self.assertEqual((status, len(errors.splitlines())), (2, 2))
        self.assertIn("bad.csv: failed with 4", out)
        self.assertIn("4 logs", out)

    def test_many_in_one_file(self):
        text = "".join(path.read_text() for path in self.results(5))
        status, out, _ = tool("verdicts", "--merge", "-", give=text)
        self.assertEqual((status, out.splitlines()[-1]), (1, "5 logs"))

    def test_other_json(self):
        good = json.loads(tool("verdicts", "--json", give=GRANTED)[1])
        output = good["outputs"][0]
        changed = [{key: value} for key in good if key not in ("status", "ignored") for value in (-1, [1], {"a": None}, True)]
        changed += [{"outputs": [output | {key: value}]} for key in output for value in (-1, [[]], True, "x") if key != "name"]
        texts = [json.dumps(good | change) for change in changed if change != {"log": "x"}]
        texts = [text for text in texts if '"requirement": "x"' not in text]
        whole = ["{}", "[1]", '{"verdicts": 1}', "nonsense", "[" * 100000, "1" * 5000, "\ud800", '"\\ud800"', "[NaN]"]
        raw = [text.encode("utf-8", "surrogatepass") for text in whole + texts] + [b"\xff\xfe"]
        paths = [self.file(f"x{k}.json", text) for k, text in enumerate(raw)]
        status, out, errors = tool("verdicts", "--merge", *paths)
        lines = errors.splitlines()
        self.assertEqual((status, len(lines)), (2, len(paths)), errors)
        for line, path in zip(lines, paths):
            self.assertRegex(line, f"^verdicts: {path}: not ")
        self.assertEqual(tool("verdicts", "--merge", "--json", *paths)[0], 2)

    def test_a_file_given_twice(self):
        path = self.results(1)[0]
        status, out, errors = tool("verdicts", "--merge", "--json", path, path.parent / "." / path.name)
        self.assertEqual((status, json.loads(out)["logs"]), (0, 1))
        self.assertEqual(errors, f"verdicts: {path} is given twice: it counts once\n")
        other = self.file("other.json", path.read_text())
        status, out, errors = tool("verdicts", "--merge", "--json", path, other)
        self.assertEqual((status, json.loads(out)["logs"]), (0, 2))
        self.assertEqual(errors, f"verdicts: {other} has the same bytes as {path}: both count\n")

    def test_a_log_without_a_verdict(self):
        good = self.results(1)[0]
        empty = self.file("empty.json", tool("verdicts", "--json", "--log", "short", give="")[1])
        status, out, _ = tool("verdicts", "--merge", good, empty)
        self.assertEqual((status, out.splitlines()[-2:]), (1, ["no verdict in short", "2 logs"]))

    def test_junit_has_a_suite_for_each_log(self):
        paths = self.results(4)
        status, out, _ = tool("verdicts", "--merge", "--junit", *paths)
        suites = ElementTree.fromstring(out)
        self.assertEqual((status, [suite.get("name") for suite in suites]), (1, [f"log{k}" for k in range(4)]))
        self.assertEqual([suite.get("failures") for suite in suites], ["0", "0", "0", "1"])


READ_BACK = """
import sys
from junitparser import JUnitXml
whole = JUnitXml.fromfile(sys.argv[1])
print(whole.tests, whole.failures, whole.errors, whole.skipped)
for suite in whole:
    print(suite.name, suite.tests, suite.time)
    for case in suite:
        kinds = [type(it).__name__ for it in case.result]
        print(case.classname, case.name, case._elem.get("file"), kinds, case.time, [it.text for it in case.result])
"""


class Parsed(Case):
    """What --junit prints, read by a library of others."""

    def parsed(self, text):
        """Returns what junitparser makes of a document."""
        python = next((it for it in ("/usr/bin/python3", sys.executable) if self.has_parser(it)), None)
        if python is None:
            self.skipTest("no junitparser: apt-get install python3-junitparser")
        words = [python, "-c", READ_BACK, str(self.file("x.xml", text))]
        ran = subprocess.run(words, stdout=subprocess.PIPE, stderr=subprocess.PIPE, encoding="utf-8")
        self.assertEqual((ran.returncode, ran.stderr), (0, ""))
        return ran.stdout.splitlines()

    def has_parser(self, python):
        words = [python, "-c", "import junitparser"]
        return os.access(python, os.X_OK) and not subprocess.run(words, stderr=subprocess.DEVNULL).returncode

    def test_one_log(self):
        spec = self.file("bus \u00e9.c2po", "INPUT a, b: bool; FTSPEC f: a -> F[0,3] b; g: a && b;")
        words = ["--junit", "--spec", spec, "--log", "flight <7>"]
        _, out, _ = tool("verdicts", *words, give="f:0,T\nf:3,F\nf:5,T\ng:2,T\n")
        lines = self.parsed(out)
        self.assertEqual(lines[:2], ["2 1 0 0", f"flight <7> 2 {lines[1].split()[-1]}"])
        text = "a -> F[0,3] b\nT 3, F 3\n1 stretch of F or invalid\nlongest: 3 from 1 on\nlast: 1 to 3"
        self.assertEqual(lines[2], f"bus \u00e9 f {spec} ['Failure'] 0.0 {[text]}")
        self.assertEqual(lines[3], f"bus \u00e9 g {spec} [] 0.0 []")

    def test_runs_that_fail_and_many_logs(self):
        paths = []
        for k, (words, give) in enumerate((([], GRANTED), (["--", "sh", "-c", "exit 4"], ""), ([], ""))):
            paths.append(self.file(f"{k}.json", tool("verdicts", "--json", "--log", f"log{k}", *words, give=give)[1]))
        lines = self.parsed(tool("verdicts", "--merge", "--junit", *paths)[1])
        self.assertEqual(lines[0], "3 2 1 0")
        self.assertEqual([line.split()[0] for line in lines if line.startswith("log")], ["log0", "log1", "log2"])
        self.assertIn("['failed with 4']", "".join(lines).replace("log1: ", ""))


SPEC = """INPUT p, q, r: bool; x: int;
DEFINE rule := (p && q -> r); pair := {p, q};
FTSPEC plain: p -> F[0,3] q;
  nested: (p -> q -> r);
  named: rule;
  window: G[0,5] (p -> q);
  every: foreach(y: pair)(y -> F[0,2] r);
  both: p -> q <-> r;
  none: p && q;
  other: G[0,2] (p -> q) && r;
  guarded: p => q;
PTSPEC past: H[1,4] (x > 3 -> O[0,2] q); back: !p -> (q -> r);
"""


class Exercised(Case):
    def test_left_sides_of_a_text(self):
        found = sides_of(specs.spec_of_text("spec", SPEC), False)
        self.assertEqual(
            found,
            {
                "plain": "p",
                "nested": "p",
                "named": "p && q",
                "window": "F[0,5] (p)",
                "every": "forsome(y: pair)(y)",
                "past": "O[1,4] (x > 3)",
                "back": "!p",
            },
        )

    def test_left_sides_of_a_program(self):
        text = (ROOT / "docs/reference/formats.md").read_text()
        shown = text.split("--show grant.obs\n")[1].split("```")[0]
        spec = specs.spec_of_text("shown", shown)
        self.assertEqual(sides_of(spec, True), {"granted": "request"})
        self.assertTrue(watched(spec, {"granted": "request"})[0].endswith("FTSPEC left0: request;\n"))

    def test_names_that_are_taken(self):
        spec = specs.spec_of_text("spec", "INPUT left0: bool; FTSPEC a: left0 -> left0;")
        self.assertEqual(watched(spec, sides_of(spec, False))[1], {"left_0": "a"})

    def test_contracts_by_their_lines(self):
        told = json.loads(tool("verdicts", "--json", "--exercised", give=AGC)[1])
        self.assertEqual(told["outputs"][0]["exercised"], {"true": 2, "of": 5})

    def run_over(self, spec, trace, *words, made=False):
        r2u2, files = program("r2u2"), [self.file("spec.c2po", spec), self.file("trace.csv", trace)]
        first = ["--source", *files]
        if made:
            status, _, errors = shell(f'{program("c2po")} -o "$OUT" "$SPEC"', OUT=self.folder / "x.obs", SPEC=files[0])
            self.assertEqual((status, errors), (0, ""))
            first = [self.folder / "x.obs", files[1]]
        env = {"C2PO": program("c2po")} if made else {}
        return tool("verdicts", "--exercised", "--json", *words, "--", r2u2, *first, env=env)

    def test_runs(self):
        trace = "# p,q,r,x\n1,0,0,9\n0,1,0,0\n0,0,1,0\n0,0,0,5\n0,0,0,0\n0,0,0,0\n"
        status, out, errors = self.run_over(SPEC, trace)
        self.assertEqual(errors, "")
        left = {it["name"]: it.get("exercised") for it in json.loads(out)["outputs"]}
        self.assertEqual(left["plain"], {"true": 1, "of": 6})
        self.assertEqual(left["named"], {"true": 0, "of": 6})
        self.assertEqual(left["every"], {"true": 2, "of": 6})
        self.assertEqual(left["back"], {"true": 5, "of": 6})
        self.assertEqual(left["guarded"], {"true": 1, "of": 6})
        self.assertEqual([left["none"], left["both"], left["other"]], [None, None, None])

    def test_a_program(self):
        for trace in ("# q,p\n0,1\n1,0\n0,1\n0,1\n", "1,0\n0,1\n1,0\n1,0\n"):
            _, out, errors = self.run_over("INPUT p, q: bool; FTSPEC a: p -> F[0,1] q; b: p && q;", trace, made=True)
            self.assertEqual(errors, "")
            left = {it["name"]: it.get("exercised") for it in json.loads(out)["outputs"]}
            self.assertEqual(left, {"a": {"true": 3, "of": 4}, "b": None})

    def test_never_tried(self):
        spec, trace = self.file("s", "INPUT p, q: bool; FTSPEC a: p -> q;"), self.file("t", "0,0\n0,1\n")
        words = ["--exercised", "--", program("r2u2"), "--source", spec, trace]
        status, out, _ = tool("verdicts", *words)
        self.assertEqual((status, out.splitlines()[-1]), (0, "a was never tried: its left side was never true"))
        self.assertIn("<skipped", tool("verdicts", "--junit", *words)[1])

    def test_r2u2_that_fails(self):
        spec = self.file("s", "INPUT p: bool;\nFTSPEC p &;\n")
        status, out, errors = tool("verdicts", "--", program("r2u2"), "--source", spec, self.file("t", "0\n"))
        self.assertEqual((status, errors), (2, "r2u2: line 2: bad character\n"))
        self.assertIn("failed with 2: r2u2: line 2: bad character", out)
