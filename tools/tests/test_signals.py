"""Signals and closed streams: every tool ends by them with one line at most, and leaves no file and no program."""

import os
import signal
import subprocess
import sys
import time
from pathlib import Path

from support import NAMES, PATIENCE, TOOLS, Case, shell, with_signals

SLOW = """#!/bin/sh
echo $$ > "$PLACE/pid"
[ "$1" = --source ] || [ -n "$SILENT" ] || echo "f:0,T"
exec sleep 600
"""


def alive(pid):
    """Returns whether a process is there and isn't a zombie."""
    try:
        return Path(f"/proc/{pid}/stat").read_text().rpartition(")")[2].split()[0] != "Z"
    except OSError:
        return False


class Ended(Case):
    """With a program in the place of r2u2 that never ends."""

    def setUp(self):
        super().setUp()
        (self.folder / "temporary").mkdir()
        self.slow = self.file("r2u2", SLOW)
        self.slow.chmod(0o755)
        self.env = {**os.environ, "R2U2": str(self.slow), "PLACE": str(self.folder), "TMPDIR": str(self.folder / "temporary")}

    def started(self, name, *words):
        """Starts a tool, and returns it when its program runs."""
        child = subprocess.Popen(
            [sys.executable, str(TOOLS / name), *map(str, words)],
            stdin=subprocess.PIPE, stdout=subprocess.PIPE, stderr=subprocess.PIPE, env=self.env, start_new_session=True,
            preexec_fn=with_signals,
        )
        self.addCleanup(self.stop, child)
        return child

    def stop(self, child):
        child.kill()
        child.communicate()

    def pid(self):
        """Returns the number of the program's process, when it has begun."""
        place = self.folder / "pid"
        for _ in range(300):
            if place.is_file() and place.read_text().strip():
                return int(place.read_text())
            time.sleep(0.1)
        self.fail("the program never began")

    def ends(self, child, number, pid=None):
        """A signal to the tool alone ends it and its program, and no file stays."""
        child.send_signal(number)
        out, errors = child.communicate(timeout=PATIENCE)
        self.assertNotIn(b"Traceback", errors)
        self.assertEqual(child.returncode, 128 + number, errors)
        for _ in range(300):
            if pid is None or not alive(pid):
                break
            time.sleep(0.1)
        self.assertFalse(pid and alive(pid))
        self.assertEqual(os.listdir(self.folder / "temporary"), [])
        return out

    def test_verdicts_of_a_command(self):
        for number in (signal.SIGINT, signal.SIGTERM, signal.SIGHUP):
            with self.subTest(number=number):
                (self.folder / "pid").unlink(missing_ok=True)
                child = self.started("verdicts", "--", self.slow)
                pid = self.pid()
                time.sleep(0.3)
                out = self.ends(child, number, pid)
                self.assertEqual(out.splitlines()[1].split()[:3], [b"f", b"1", b"-"])

    def test_verdicts_of_a_command_that_is_silent(self):
        self.env["SILENT"] = "1"
        child = self.started("verdicts", "--", self.slow)
        self.ends(child, signal.SIGINT, self.pid())

    def test_timeline(self):
        spec, trace = self.file("spec", "INPUT p: bool; FTSPEC f: p;"), self.file("trace", "# p\n1\n")
        for number in (signal.SIGINT, signal.SIGTERM):
            with self.subTest(number=number):
                (self.folder / "pid").unlink(missing_ok=True)
                child = self.started("timeline", "--", "r2u2", "--source", spec, trace)
                self.ends(child, number, self.pid())

    def test_trace(self):
        """An output that isn't complete is removed."""
        for number in (signal.SIGINT, signal.SIGTERM):
            child = self.started("trace", "-o", self.folder / "temporary/out.csv")
            child.stdin.write(b"a\n1\n")
            child.stdin.flush()
            for _ in range(100):
                if os.listdir(self.folder / "temporary"):
                    break
                time.sleep(0.1)
            self.ends(child, number)

    def test_ignored_signals_stay_ignored(self):
        words = [sys.executable, str(TOOLS / "trace")]
        ignore = lambda: signal.signal(signal.SIGHUP, signal.SIG_IGN)
        pipes = {"stdin": subprocess.PIPE, "stdout": subprocess.PIPE, "bufsize": 0}
        child = subprocess.Popen(words, preexec_fn=ignore, **pipes)
        self.addCleanup(self.stop, child)
        child.stdin.write(b"a\n1\n")
        child.stdin.flush()
        self.assertEqual(child.stdout.readline(), b"# a\n")
        child.send_signal(signal.SIGHUP)
        self.assertEqual(child.communicate(timeout=PATIENCE)[0], b"1\n")
        self.assertEqual(child.returncode, 0)


class ClosedStreams(Case):
    WORDS = {
        "trace": "", "verdicts": "", "timeline": "",
        "why": '"$SPEC" - f:0', "budget": '"$SPEC"', "convert": "import c2po -",
    }

    def test_help_into_a_closed_output(self):
        for name in NAMES:
            status, out, errors = shell(f'"$TOOLS/{name}" --help >&-')
            self.assertEqual((status, out), (2, ""), name)
            self.assertEqual(errors, f"{name}: the standard output: it is closed\n")

    def test_a_closed_input(self):
        spec = self.file("spec", "INPUT p: bool; FTSPEC f: p;")
        for name in ("trace", "verdicts", "timeline"):
            status, out, errors = shell(f'"$TOOLS/{name}" {self.WORDS[name]} <&-', SPEC=spec)
            self.assertEqual((status, out), (2, ""), name)
            self.assertEqual(errors, f"{name}: cannot read the standard input: it is closed\n")

    def test_all_closed(self):
        for name in NAMES:
            status, out, errors = shell(f'"$TOOLS/{name}" --nonsense <&- >&- 2>&-')
            self.assertEqual((status, out, errors), (2, "", ""), name)

    def test_a_full_disk(self):
        for name in NAMES:
            status, out, errors = shell(f'"$TOOLS/{name}" --help > /dev/full')
            self.assertEqual((status, out, errors), (2, "", f"{name}: No space left on device\n"), name)

    def test_files_that_are_opened_take_no_stream(self):
        """With a closed output, a file that is written has what belongs to it alone."""
        lines, page = self.file("lines", "f:0,T\nf:3,F\n"), self.folder / "page.svg"
        status, _, errors = shell('"$TOOLS/timeline" -o "$PAGE" "$LINES" <&- >&-', PAGE=page, LINES=lines)
        self.assertEqual((status, errors), (0, ""))
        self.assertTrue(page.read_text().startswith("<svg"))


class Installed(Case):
    """Tools under a PREFIX find the programs next to them."""

    def test_own_prefix_comes_before_the_path(self):
        prefix, other = self.folder / "usr", self.folder / "other"
        for folder in (prefix / "bin", prefix / "share/r2u2/tools", other):
            folder.mkdir(parents=True)
        shell('cp -r "$TOOLS/r2u2-tools" "$TOOLS/verdicts" "$TOOLS/lib" "$INTO"', INTO=prefix / "share/r2u2/tools")
        for folder, word in ((prefix / "bin", "T"), (other, "F")):
            path = folder / "r2u2"
            path.write_text(f"#!/bin/sh\necho f:0,{word}\n")
            path.chmod(0o755)
        (prefix / "bin/r2u2-verdicts").symlink_to("../share/r2u2/tools/verdicts")
        line = 'unset R2U2 C2PO; PATH="$OTHER:$PATH"; "$PREFIX/bin/r2u2-verdicts" -- r2u2 x'
        status, out, errors = shell(line, OTHER=other, PREFIX=prefix)
        self.assertEqual((status, errors), (0, ""), out)
        (prefix / "bin/r2u2").unlink()
        self.assertEqual(shell(line, OTHER=other, PREFIX=prefix)[0], 1)
        (other / "r2u2").unlink()
        status, out, errors = shell(line.replace("$OTHER:$PATH", "/usr/bin:/bin"), OTHER=other, PREFIX=prefix)
        self.assertEqual(status, 2)
        self.assertIn(f"no program r2u2 in {prefix.resolve()}/bin or on the path", errors)
        self.one_line(errors)
