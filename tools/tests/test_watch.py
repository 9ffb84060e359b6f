"""watch: a stream row by row, alarms with reasons, how it ends, and real sources: a broker, a serial line."""

import os
import pty
import shutil
import signal
import socket
import subprocess
import sys
import threading
import time
import unittest
from unittest import mock

from support import PATIENCE, ROOT, TOOLS, Case, program, spent, tool
from r2u2tools.watch import alarm
from r2u2tools.watch.board import Board

GRANT, TRACE = ROOT / "examples/grant.c2po", ROOT / "examples/grant.csv"
REASON = "granted is F at 2: request holds at row 2; grant is false at rows 2, 3, 4 and 5"
COMMAND = 'echo "$R2U2_OUTPUT $R2U2_TIME $R2U2_WORD $R2U2_REASON" >> "$OUT"'


class Live(Case):
    """A case with one tool that runs meanwhile."""

    def setUp(self):
        super().setUp()
        program("r2u2")
        program("c2po")
        self.out = self.folder / "out"

    def start(self, *words, **more):
        words = [sys.executable, str(TOOLS / "watch"), *map(str, words)]
        pipes = {"stdin": subprocess.PIPE, "stdout": subprocess.PIPE, "stderr": subprocess.PIPE, **more}
        child = subprocess.Popen(words, env={**os.environ, "OUT": str(self.out)}, **pipes)
        self.addCleanup(lambda: child.poll() is None and child.kill())
        return child

    def until(self, what, seconds=PATIENCE):
        """Waits until something is true."""
        end = time.monotonic() + seconds
        while time.monotonic() < end:
            if found := what():
                return found
            time.sleep(0.02)
        return self.fail("it took too long")

    def alarms(self, count=1):
        lines = lambda: self.out.read_text().splitlines() if self.out.exists() else []
        return self.until(lambda: len(lines()) >= count and lines())


class Watch(Live):
    def test_a_file(self):
        status, out, errors = tool("watch", GRANT, TRACE)
        lines = out.splitlines()
        self.assertEqual((status, errors, lines[0]), (1, "", "granted:2,F"))
        self.assertRegex(lines[1], r"^\d+ rows, 0:00:0\d$")
        self.assertEqual(lines[2].split()[:4], ["output", "verdict", "at", "behind"])
        self.assertRegex(lines[3], r"^granted +T +\d+ +\d+ +1 +1 +2$")
        self.assertEqual(tool("watch", "--quiet", GRANT, TRACE), (1, "", ""))

    def test_a_command_with_its_reason(self):
        status, out, errors = tool("watch", "--on-false", COMMAND, GRANT, TRACE, env={"OUT": str(self.out)})
        self.assertEqual((status, errors), (1, ""))
        (line,) = self.alarms()
        self.assertEqual(line.partition("granted is")[0], "granted 2 F ")
        self.assertIn("granted is F at 2: request holds at row 2", line)

    def test_row_by_row(self):
        """A line is there as soon as the row that decides it has come, and before the next one."""
        child = self.start("--on-false", COMMAND, GRANT)
        for row in ("# request,grant", "1,0", "0,0", "0,0", "0,0"):
            self.assertFalse(self.out.exists())
            child.stdin.write(f"{row}\n".encode())
            child.stdin.flush()
        self.assertEqual(child.stdout.readline(), b"granted:0,F\n")
        self.assertTrue(self.alarms()[0].startswith("granted 0 F granted is F at 0: "))
        child.stdin.write(b"0,1\n1,0\n0,0\n0,0\n1,0\n")
        child.stdin.flush()
        self.assertEqual(child.stdout.readline(), b"granted:5,F\n")
        self.assertIn("granted 5 F", self.alarms(2)[1])
        out, errors = child.communicate(timeout=PATIENCE)
        self.assertEqual((child.returncode, errors), (1, b""))
        self.assertRegex(out.decode().splitlines()[-1], r"^granted +T +7 +1 +2 +2 +5$")

    def test_stretches(self):
        spec = self.file("spec.c2po", "INPUT p: bool;\nFTSPEC f: p; c: p => p; d: true => p;\n")
        rows = self.file("rows.csv", "# p\n1\n0\n0\n1\n0\n")
        status, out, _ = tool("watch", "--on-false", COMMAND, spec, rows, env={"OUT": str(self.out)})
        lines = out.splitlines()
        self.assertEqual((status, sorted(lines[:4])), (1, ["d:1,invalid", "d:4,invalid", "f:1,F", "f:4,F"]))
        table = ["f F 4 0 3 2 4", "c inactive 4 0 0 0 -", "d invalid 4 0 3 2 4"]
        self.assertEqual([" ".join(line.split()) for line in lines[-3:]], table)
        self.assertEqual(len(self.alarms(4)), 4)

    def test_no_fault(self):
        rows = self.file("rows.csv", "1,1\n0,0\n")
        status, out, errors = tool("watch", GRANT, rows)
        self.assertEqual((status, errors, len(out.splitlines())), (0, "", 3))

    def test_stop_at_first(self):
        child = self.start("--stop-at-first", GRANT)
        child.stdin.write(b"# request,grant\n" + b"1,1\n" * 3 + b"1,0\n" * 4)
        child.stdin.flush()
        out = child.stdout.read().decode().splitlines()
        self.assertEqual(child.wait(PATIENCE), 1)
        self.assertEqual(out[0], "granted:3,F")
        self.assertTrue(out[-1].startswith("granted is F at 3: request holds at row 3"), out)

    def test_keep(self):
        status, _, _ = tool("watch", "--keep", "2", "--on-false", COMMAND, GRANT, TRACE, env={"OUT": str(self.out)})
        self.assertEqual(status, 1)
        line = "granted 2 F granted:2,F: no reason: its rows came before the latest 2, which --keep keeps"
        self.assertEqual(self.alarms()[0], line)

    def test_reasons_after_many_rows(self):
        """Those of the latest rows are found, however many came before, in rows and in stamps."""
        rows = self.file("rows.csv", "# request,grant\n" + "0,0\n" * 5000 + "1,0\n0,0\n0,0\n0,0\n")
        told = tool("watch", "--keep", "20", "--on-false", COMMAND, GRANT, rows, env={"OUT": str(self.out)})
        self.assertEqual((told[0], told[2]), (1, ""))
        reason = "granted is F at 5000: request holds at row 5000; grant is false at rows 5000, 5001, 5002 and 5003"
        self.assertEqual(self.alarms()[0], f"granted 5000 F {reason}")
        stamped = self.file("stamped.csv", "".join(f"@{7 * k},0,0\n" for k in range(5000)) + "@40000,1,0\n@40009,0,0\n")
        self.out.unlink()
        words = ["--timed", "--keep", "20", "--on-false", COMMAND, GRANT, stamped]
        self.assertEqual(tool("watch", *words, env={"OUT": str(self.out)})[0], 1)
        self.assertTrue(self.alarms()[0].startswith("granted 40000 F granted is F at 40000: request holds at time 40000"))

    def test_stamps(self):
        rows = self.file("rows.csv", "@0,1,0\n@9,0,1\n")
        status, out, errors = tool("watch", "--timed", "--on-false", COMMAND, GRANT, rows, env={"OUT": str(self.out)})
        self.assertEqual((status, errors, out.splitlines()[0]), (1, "", "granted:0,F"))
        self.assertIn("granted is F at 0: request holds at time 0", self.alarms()[0])

    def test_a_program(self):
        obs = self.folder / "grant.obs"
        subprocess.run([program("c2po"), "-o", str(obs), str(GRANT)], check=True)
        self.assertEqual(tool("watch", obs, TRACE)[1].splitlines()[0], "granted:2,F")

    def test_a_command_that_fails(self):
        status, _, errors = tool("watch", "--on-false", "exit 3", GRANT, TRACE)
        self.assertEqual((status, errors), (1, "watch: granted:2,F: the command ended with status 3\n"))
        _, out, errors = tool("watch", "--on-false", "echo said", GRANT, TRACE)
        self.assertEqual((errors, "said" in out), ("said\n", False))

    def test_nothing_of_the_stream_is_in_the_line(self):
        """Names come by variables: nothing that a trace holds reaches the shell as a separate argument."""
        rows = self.file("rows.csv", '# request,grant,$(touch "$OUT")\n1,0,`touch "$OUT"`\n0,0,1\n0,0,1\n0,0,1\n')
        self.assertEqual(tool("watch", "--on-false", ": $R2U2_REASON", GRANT, rows, env={"OUT": str(self.out)})[0], 1)
        self.assertFalse(self.out.exists())

    def test_faults(self):
        bad = self.file("bad.csv", "# request,grant\n1,0\n1,x\n")
        none, refused = self.file("none.csv", ""), self.file("x.c2po", "FTSPEC f: p;")
        wrong = ([GRANT, bad], [GRANT, "/nowhere"], ["/nowhere", TRACE], [GRANT, none], [refused, TRACE], ["--keep", "x", GRANT])
        for words in wrong:
            status, out, errors = tool("watch", *words)
            self.assertEqual(status, 2, words)
            self.one_line(errors)
        self.assertIn("trace line 3", tool("watch", GRANT, bad)[2])

    def test_signals(self):
        """Neither r2u2 nor a file is left."""
        for number, status in ((signal.SIGTERM, 143), (signal.SIGINT, 130)):
            child = self.start(GRANT, preexec_fn=lambda: signal.signal(signal.SIGINT, signal.SIG_DFL))
            child.stdin.write(b"# request,grant\n1,0\n0,0\n0,0\n0,0\n")
            child.stdin.flush()
            self.assertEqual(child.stdout.readline(), b"granted:0,F\n")
            (inner,) = self.until(lambda: children(child.pid))
            child.send_signal(number)
            out, errors = child.communicate(timeout=PATIENCE)
            self.assertEqual((child.returncode, errors), (status, b""))
            self.assertIn(b"granted  ", out)
            self.until(lambda: not os.path.exists(f"/proc/{inner}"))

    def test_a_million_rows(self):
        """It keeps up with what r2u2 takes."""
        rows = self.file("rows.csv", "# request,grant\n" + "0,0\n0,1\n" * 250_000)
        before = spent()
        status, out, _ = tool("watch", GRANT, rows)
        self.assertEqual((status, out.splitlines()[0].partition(",")[0]), (0, "500000 rows"))
        self.assertLess(spent() - before, 60)


def children(pid):
    with open(f"/proc/{pid}/task/{pid}/children") as file:
        return [int(it) for it in file.read().split()]


class Terminal(Live):
    def test_a_table_that_goes_on(self):
        """On a terminal the table is drawn in place, with the rate."""
        main, other = pty.openpty()
        self.addCleanup(os.close, main)
        child = self.start(GRANT, stdout=other)
        os.close(other)
        seen = bytearray()
        threading.Thread(target=lambda: take_all(main, seen), daemon=True).start()
        for row in (b"# request,grant\n", *[b"1,0\n"] * 8):
            child.stdin.write(row)
            child.stdin.flush()
            time.sleep(0.05)
        self.until(lambda: b"granted  F " in seen and b"\x1b[3A" in seen and b" a second" in seen)
        child.stdin.close()
        self.assertEqual(child.wait(PATIENCE), 1)
        self.until(lambda: b"8 rows" in seen)
        self.assertNotIn(b"granted:", seen)

    def test_too_many_outputs_for_the_room(self):
        board = Board([f"o{k}" for k in range(30)])
        for k in range(30):
            board.take(f"o{k}", 0, 3, "F" if k == 20 else "T")
        lines = board.table(4, 2.5, 10)
        self.assertEqual((len(lines), lines[0].partition(",")[0]), (10, "4 rows"))
        self.assertEqual((lines[2].split()[:2], lines[-1]), (["o20", "F"], "and 23 more"))


def take_all(line, seen):
    try:
        while block := os.read(line, 4096):
            seen += block
    except OSError:
        return


class Sources(Live):
    def test_a_serial_line(self):
        """A device that sends rows: the other side of a pseudo-terminal."""
        main, other = pty.openpty()
        subprocess.run(["stty", "raw", "-echo"], stdin=other, check=True)
        child = self.start("--stop-at-first", GRANT, os.ttyname(other))
        for row in (b"# request,grant\n", b"1,0\n", b"0,0\n", b"0,0\n", b"0,0\n"):
            os.write(main, row)
        self.assertEqual(child.stdout.readline(), b"granted:0,F\n")
        self.assertEqual(child.wait(PATIENCE), 1)
        os.close(other)
        os.close(main)

    def test_a_fifo(self):
        path = self.folder / "fifo"
        os.mkfifo(path)
        child = self.start(GRANT, path)
        with open(path, "wb") as file:
            file.write(TRACE.read_bytes())
        self.assertEqual(child.wait(PATIENCE), 1)

    def test_a_broker(self):
        """Rows come from a broker, and alarms go back to it: the lines of the page, with a real one."""
        path = os.environ["PATH"] + ":/usr/sbin"
        if not all(shutil.which(name, path=path) for name in ("mosquitto", "mosquitto_sub", "mosquitto_pub")):
            raise unittest.SkipTest("no mosquitto with its clients on the path")
        with socket.socket() as free:
            free.bind(("127.0.0.1", 0))
            port = free.getsockname()[1]
        config = self.file("broker.conf", f"listener {port} 127.0.0.1\nallow_anonymous true\npersistence false\n")
        quiet = {"stdout": subprocess.DEVNULL, "stderr": subprocess.DEVNULL}
        broker = subprocess.Popen([shutil.which("mosquitto", path=path), "-c", str(config)], **quiet)
        self.addCleanup(broker.wait)
        self.addCleanup(broker.kill)
        at = f"-h 127.0.0.1 -p {port}"
        self.until(lambda: not subprocess.run(["sh", "-c", f"mosquitto_pub {at} -t ready -m 1"], **quiet).returncode)
        heard = subprocess.Popen(["sh", "-c", f"exec mosquitto_sub {at} -q 1 -C 1 -t alarms"], stdout=subprocess.PIPE)
        self.addCleanup(heard.stdout.close)
        alarm = f"mosquitto_pub {at} -q 1 -t alarms -m \"$R2U2_REASON\""
        line = f"mosquitto_sub {at} -q 1 -t telemetry/rows | exec {sys.executable} {TOOLS}/watch --on-false '{alarm}' {GRANT}"
        watching = subprocess.Popen(["sh", "-c", line], start_new_session=True, **quiet)
        self.addCleanup(watching.wait)
        self.addCleanup(lambda: os.killpg(watching.pid, signal.SIGTERM))
        # whoever subscribes late misses what was sent before: the header is kept for it, and rows are sent until an alarm comes
        subprocess.run(["sh", "-c", f"mosquitto_pub {at} -r -q 1 -t telemetry/rows -m '# request,grant'"], check=True)
        end = time.monotonic() + PATIENCE
        while heard.poll() is None and time.monotonic() < end:
            for row in ("0,0", "1,0", "0,0", "0,0", "0,0"):
                subprocess.run(["sh", "-c", f"mosquitto_pub {at} -q 1 -t telemetry/rows -m '{row}'"], check=True)
        told = heard.communicate(timeout=PATIENCE)[0].decode()
        self.assertRegex(told, r"^granted is F at (\d+): request holds at row \1; grant is false")


class Alarms(Case):
    """Commands that take too long, and more events than may wait."""

    def test_limits(self):
        told, begun, go = [], threading.Event(), threading.Event()

        class Slow:
            def of(self, event):
                begun.set()
                go.wait(PATIENCE)
                return event.line()

        with mock.patch.multiple(alarm, note=told.append, SECONDS=0.2, MOST_WAITING=2):
            alarms = alarm.Alarms("exec sleep 600", Slow())
            alarms.put(alarm.Event("f", 0, "F"))
            self.assertTrue(begun.wait(PATIENCE))
            for row in (1, 2, 3):
                alarms.put(alarm.Event("f", row, "F"))
            go.set()
            alarms.finish(at_once=False)
        self.assertEqual(told[:3], [f"f:{row},F: the command took more than 0.2 seconds" for row in range(3)])
        self.assertEqual(told[3:], ["1 commands weren't run: more than 2 were waiting"])
