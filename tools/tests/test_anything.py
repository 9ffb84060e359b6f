"""No tool ends in a traceback, whatever it reads."""

import random
import signal
import subprocess
import sys

from support import PATIENCE, ROOT, TOOLS, Case, tool

LINES = b"granted:0,T\ngranted:1,F\nagc:7,inactive\n"
TELEMETRY = b'\xef\xbb\xbft,"volts",on\n0,1.5,true\n0.1,2,false\n'
RESULT = (
    b'{"verdicts": 2, "log": "a", "logs": 1, "lines": 3, "spec": null, "seconds": 0.1, "status": 0, "ignored": [], "failed": [],'
    b' "empty": [], "outputs": [{"name": "f", "logs": 1, "decided": 2, "undecided": 0, "words": {"T": 1, "F": 1}, "bad_logs": 1,'
    b' "first": {"time": 1, "word": "F", "log": "a"}, "stretches": 1, "longest": {"from": 1, "to": 1, "log": "a"},'
    b' "last": {"from": 1, "to": 1, "log": "a"}}]}'
)
DUMP = b"$timescale 1 s $end\n$var wire 1 ! up $end\n$enddefinitions $end\n#0\n1!\n#2\nb0 !\n#3\nr1 !\n"
OBJECTS = b'{"t": 0, "a": {"b": 1}, "c": [true, null]}\n{"t": 1, "a": {"b": 2}, "c": [false, 3]}\n'
OLD = b"INPUT a: bool; x: int;\nDEFINE d := x > 3;\nFTSPEC f: a xor d -> F[0,3] a; PTSPEC p: H a;\n"
FRET = (
    b'[{"reqid": "A-1", "fulltext": "it shall within 2 ticks satisfy p", "semantics": {"scope": {"type": "in"}, "scope_mode": "m",'
    b' "condition": "regular", "regular_condition": "(c)", "timing": "within", "duration": "2", "post_condition": "(p)"}}]'
)


def spoilt(rng, raw):
    """A text with some bytes that became others."""
    raw = bytearray(raw)
    for _ in range(rng.randint(1, 4)):
        kind, place = rng.randrange(3), rng.randrange(len(raw))
        if kind == 0:
            raw[place] = rng.choice(b"\x00\x1b\xff\n,:\"'09-eETF{}[]")
        elif kind == 1:
            del raw[place : place + rng.randint(1, 5)]
        else:
            raw[place:place] = rng.choice([b"\n\n", b'"', b"9" * 30, b"\x00", b"@", b"\r", b",,", b"#"])
        raw = raw or bytearray(b"x")
    return bytes(raw)


class Anything(Case):
    def tried(self, name, seed, raw, *words):
        rng = random.Random(seed)
        for k in range(12):
            path = self.file("given", spoilt(rng, raw) if k else b"")
            status, _, errors = tool(name, *words, path)
            self.assertIn(status, (0, 1, 2), errors)
            self.assertNotIn("Traceback", errors, path.read_bytes())

    def test_verdicts(self):
        self.tried("verdicts", 1, LINES, "--junit")
        self.tried("verdicts", 2, RESULT, "--merge")

    def test_trace(self):
        self.tried("trace", 3, TELEMETRY, "--scale", "volts=10", "--time", "t", "--rate", "10", "--hold")

        self.tried("trace", 8, DUMP, "--format", "vcd", "--time", "t", "--rate", "10", "--missing", "hold")
        self.tried("trace", 9, OBJECTS, "--format", "json", "--columns", "a.b", "--missing", "0")

    def test_convert(self):
        self.tried("convert", 10, OLD, "from-c2po", "--mission", "9")
        self.tried("convert", 11, FRET, "from-fret")
        self.tried("convert", 12, b"a: 0\nb: 1\n", "from-map")
        self.tried("convert", 13, LINES, "to-vcd")
        self.tried("convert", 14, LINES, "to-csv")

    def test_timeline(self):
        lines = self.file("lines", LINES)
        self.tried("timeline", 4, LINES, "--spec", ROOT / "examples/grant.c2po")
        self.tried("timeline", 5, (ROOT / "examples/stamped.csv").read_bytes(), "--html", lines, "--trace")
        self.tried("timeline", 6, (ROOT / "examples/requests.c2po").read_bytes(), lines, "--spec")
        self.tried("timeline", 7, b"MLTL\x02\x00\x00\x00" + bytes(range(60)), lines, "--spec")

    def test_check(self):
        text = (ROOT / "examples/arbiter.c2po").read_bytes()
        self.tried("check", 8, text)
        self.tried("check", 9, text, "--sarif")
        self.tried("check", 10, text, "--format", "--diff")

    def test_watch(self):
        rows = (ROOT / "examples/stamped.csv").read_bytes()
        self.tried("watch", 11, rows, "--timed", "--on-false", "true", ROOT / "examples/requests.c2po")
        self.tried("watch", 12, (ROOT / "examples/grant.c2po").read_bytes())

    def test_texts_that_are_no_xml(self):
        trace = self.file("trace", "# a\x1b[1m,b\x00\n1,0\n")
        out = tool("timeline", "--trace", trace, give="f:0,T\n")[1]
        __import__("xml.etree.ElementTree").etree.ElementTree.fromstring(out)
        out = tool("verdicts", "--junit", "--", "sh", "-c", "printf 'x\\033[1m\\001' >&2; exit 3")[1]
        __import__("xml.etree.ElementTree").etree.ElementTree.fromstring(out)

    def test_an_interrupt(self):
        """What was read so far is printed."""
        words = [sys.executable, str(TOOLS / "verdicts")]
        pipes = {"stdin": subprocess.PIPE, "stdout": subprocess.PIPE, "stderr": subprocess.PIPE}
        # a shell that runs the tests in the background ignores interrupts, and its children would too
        child = subprocess.Popen(words, preexec_fn=lambda: signal.signal(signal.SIGINT, signal.SIG_DFL), **pipes)
        child.stdin.write(b"".join(b"f:%d,T\n" % k for k in range(40000)))
        child.stdin.flush()
        child.send_signal(signal.SIGINT)
        out, errors = child.communicate(timeout=PATIENCE)
        self.assertEqual((child.returncode, errors), (130, b""))
        self.assertRegex(out.decode(), r"^output +T +first F or invalid +decided\nf +[0-9]+ +- +to [0-9]+\n$")
