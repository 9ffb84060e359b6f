"""What r2u2 and c2po do at real files, pipes and terminals: dev/edges runs these tests.

Each test runs the programs over files of a separate folder, and compares the
status, the output and the message with what docs/reference/ (command-lines.md,
formats.md, messages.md) and the pages of the manual say.
"""

import os
import pty
import resource
import select
import shutil
import signal
import subprocess
import tempfile
import termios
import time
from pathlib import Path

import deepest
import pytest

ROOT = Path(__file__).resolve().parents[2]
SECONDS = 120
NOBODY = 65534
# The stack that docs/reference/limits.md states, in KiB: where a specification is read, and where a program is.
STACK_OF_TEXTS = 2048
STACK_OF_PROGRAMS = 128

SPEC = "INPUT request, grant: bool;\nFTSPEC granted: request -> F[0,3] grant;\n"
TRACE = "# request,grant\n1,0\n0,1\n1,0\n0,0\n0,0\n0,0\n1,1\n"
LINES = "granted:0,T\ngranted:1,T\ngranted:2,F\ngranted:3,T\ngranted:4,T\ngranted:5,T\ngranted:6,T\n"
WRONG = "FTSPEC f: p;\n"
# Each row of these decides its line, and the lines fill any pipe.
PLAIN = "INPUT p: bool;\nFTSPEC f: p;\n"
MANY = 20_000
# Runs over the files of the first example that write to the standard output.
WRITERS = [
    "r2u2 program trace",
    "r2u2 --source spec trace",
    "r2u2 --demo 1,9",
    "r2u2 --help",
    "c2po --table spec",
    "c2po --show program",
    "c2po -o - spec",
    "c2po --help",
]


def same(what, is_, wanted):
    if is_ != wanted:
        pytest.fail(f"{what} is {shortened(is_)} and not {shortened(wanted)}")


def shortened(value):
    text = repr(value)
    return text if len(text) <= 300 else f"{text[:200]} .. {text[-60:]}"


def message(tool, text):
    return f"{tool}: {text}\n"


def later(*steps):
    """What a program's process does before it begins."""
    return lambda: [step() for step in steps]


def lets(number, how):
    return lambda: signal.signal(number, how)


def limits(which, number):
    return lambda: resource.setrlimit(which, (number, number))


def becomes_nobody():
    os.setgroups([])
    os.setgid(NOBODY)
    os.setuid(NOBODY)


class Result:
    """How a run ended: its status, which is below 0 where a signal ended it, its output and its error output."""

    def __init__(self, ran):
        self.status = ran.returncode
        self.out = (ran.stdout or b"").decode("latin-1")
        self.err = (ran.stderr or b"").decode("latin-1")

    def is_(self, status, out="", err=""):
        same("the status", (self.status, self.err), (status, err))
        same("the output", self.out, out)


class Place:
    """A folder of a test's own, and the programs."""

    def __init__(self, folder, programs, stack):
        self.folder, self.programs, self.stack = Path(folder), programs, stack

    def file(self, name, text=""):
        """A file of the folder; a text is written byte by byte."""
        path = self.folder / name
        path.write_bytes(text if isinstance(text, bytes) else text.encode("latin-1"))
        return path

    def text(self, name):
        return (self.folder / name).read_bytes().decode("latin-1")

    def started(self, words, **more):
        """A run that has begun, with its streams as pipes where nothing else is said."""
        for stream in ("stdin", "stdout", "stderr"):
            more.setdefault(stream, subprocess.PIPE)
        return subprocess.Popen([self.programs[words[0]], *words[1:]], cwd=self.folder, **more)

    def run(self, line, give="", **more):
        """A run to its end of a line of words, which blanks part; `give` is its standard input."""
        words = line.split()
        if "stdin" not in more:
            more["input"] = give if isinstance(give, bytes) else give.encode("latin-1")
        for stream in ("stdout", "stderr"):
            more.setdefault(stream, subprocess.PIPE)
        command = [self.programs[words[0]], *words[1:]]
        return Result(subprocess.run(command, cwd=self.folder, timeout=SECONDS, **more))

    def compiled(self, spec=SPEC, name="program"):
        """The program of a specification, in a file."""
        self.file(name + ".c2po", spec)
        self.run(f"c2po -o {name} {name}.c2po").is_(0)
        return self.folder / name

    def grants(self):
        """The first example: its specification, its program and its trace."""
        self.compiled()
        self.file("spec", SPEC)
        self.file("trace", TRACE)


def program(name):
    """The path of a program: the variable of the environment names it, else build/ has it, else the gate left it."""
    named = os.environ.get(name.upper())
    paths = [Path(named)] if named else [ROOT / "build" / name, ROOT / "crates" / name / "out" / name]
    for path in paths:
        if path.is_file() and os.access(path, os.X_OK):
            return path.absolute()
    pytest.exit(f"edges: no {' nor '.join(map(str, paths))}: make builds it, and {name.upper()} may name another", 2)


@pytest.fixture
def place(request):
    programs = {name: program(name) for name in ("r2u2", "c2po")}
    # Not the folder that pytest makes: no other user may enter it.
    with tempfile.TemporaryDirectory(prefix="edges-") as folder:
        yield Place(folder, programs, request.config.getoption("stack"))


def read_line(stream, seconds=SECONDS):
    """The next line of an open file's descriptor, which has to come within some seconds."""
    line, ends = b"", time.monotonic() + seconds
    while not line.endswith(b"\n"):
        if not select.select([stream], [], [], max(0, ends - time.monotonic()))[0]:
            pytest.fail(f"no line came within {seconds} s, after {line!r}")
        more = os.read(stream, 1)
        if not more:
            pytest.fail(f"the output ended, after {line!r}")
        line += more
    return line.decode("latin-1")


def silent(stream, seconds=0.05):
    """Nothing comes for a while but the end."""
    if select.select([stream], [], [], seconds)[0]:
        early = os.read(stream, 200)
        if early:
            pytest.fail(f"a line came too early: {early!r}")


def finish(run, status, out="", err=""):
    """Waits for a run that has begun, and compares what is left of it."""
    try:
        rest, errors = run.communicate(timeout=SECONDS)
    except subprocess.TimeoutExpired:
        run.kill()
        run.communicate()
        pytest.fail(f"it didn't end within {SECONDS} s")
    result = Result(subprocess.CompletedProcess(run.args, run.returncode, rest, errors))
    result.is_(status, out, err)


# ---- readers and disks


def without_reader(place, line, how):
    """How a run ends whose output no one reads, with the signal of that as `how` says."""
    read, write = os.pipe()
    os.close(read)
    try:
        return place.run(line, stdout=write, preexec_fn=lets(signal.SIGPIPE, how))
    finally:
        os.close(write)


def test_a_closed_reader(place):
    place.grants()
    for line in WRITERS:
        without_reader(place, line, signal.SIG_DFL).is_(7, err=message(line.split()[0], "cannot write output"))


def test_a_closed_reader_where_the_signal_is_ignored(place):
    place.grants()
    for line in WRITERS:
        without_reader(place, line, signal.SIG_IGN).is_(7, err=message(line.split()[0], "cannot write output"))


def test_a_reader_that_goes_away_after_a_line(place):
    place.compiled(PLAIN)
    place.file("trace", "1\n" * MANY)
    for how in [signal.SIG_DFL, signal.SIG_IGN]:
        run = place.started(["r2u2", "program", "trace"], preexec_fn=lets(signal.SIGPIPE, how))
        same("the first line", read_line(run.stdout.fileno()), "f:0,T\n")
        run.stdout.close()
        run.stdout = None
        finish(run, 7, err="r2u2: cannot write output\n")


def test_a_full_disk(place):
    place.grants()
    for line in WRITERS:
        with open("/dev/full", "wb") as full:
            place.run(line, stdout=full).is_(7, err=message(line.split()[0], "cannot write output"))
    for line in ["c2po -o /dev/full spec", "c2po --table -o /dev/full spec", "c2po --show -o /dev/full program"]:
        place.run(line).is_(7, err="c2po: cannot write output\n")


def test_a_disk_that_fills_up_leaves_a_part(place):
    whole = place.compiled().read_bytes()
    limit = later(lets(signal.SIGXFSZ, signal.SIG_IGN), limits(resource.RLIMIT_FSIZE, 100))
    place.run("c2po -o part program.c2po", preexec_fn=limit).is_(7, err="c2po: cannot write output\n")
    same("the part", place.folder.joinpath("part").read_bytes(), whole[:100])
    place.run("r2u2 part").is_(3, err="r2u2: program: short\n")
    place.compiled(PLAIN)
    place.file("trace", "1\n" * 50)
    with open(place.folder / "lines", "wb") as lines:
        place.run("r2u2 program trace", stdout=lines, preexec_fn=limit).is_(7, err="r2u2: cannot write output\n")
    wanted = "".join(f"f:{k},T\n" for k in range(50))
    same("the lines before", place.text("lines"), wanted[:100])


# ---- names


def test_names_without_a_file(place):
    place.grants()
    for line, what in [
        ("r2u2 none", "program"),
        ("r2u2 --source none", "specification"),
        ("r2u2 program none", "trace"),
        ("r2u2 --source spec none", "trace"),
        ("c2po none", "specification"),
        ("c2po --header none spec", "header"),
        ("c2po --upgrade none", "program"),
        ("c2po --show none", "program"),
        ("c2po -o none/out spec", "output"),
    ]:
        place.run(line).is_(6, err=message(line.split()[0], f"cannot open {what}"))


def test_a_directory_as_input_and_output(place):
    place.grants()
    (place.folder / "folder").mkdir()
    for line, what in [
        ("r2u2 folder", "program"),
        ("r2u2 --source folder", "specification"),
        ("r2u2 program folder", "trace"),
        ("r2u2 --source spec folder", "trace"),
        ("c2po folder", "specification"),
        ("c2po --header folder spec", "header"),
        ("c2po --upgrade folder", "program"),
        ("c2po --show folder", "program"),
    ]:
        place.run(line).is_(6, err=message(line.split()[0], f"cannot read {what}"))
    place.run("c2po -o folder spec").is_(6, err="c2po: cannot open output\n")
    with open_folder(place.folder) as folder:
        place.run("r2u2 program", stdin=folder).is_(6, err="r2u2: cannot read trace\n")


class open_folder:
    """A folder as an open descriptor."""

    def __init__(self, path):
        self.number = os.open(path, os.O_RDONLY)

    def __enter__(self):
        return self.number

    def __exit__(self, *_):
        os.close(self.number)


def test_a_closed_standard_input(place):
    """A program without a standard input can't read from it, though its own files are opened at that descriptor first."""
    place.grants()
    closed = {"stdin": subprocess.DEVNULL, "preexec_fn": lambda: os.close(0)}
    for line, what in [
        ("r2u2 program", "trace"),
        ("r2u2 program -", "trace"),
        ("r2u2 --source spec", "trace"),
        ("r2u2 -", "program"),
        ("c2po --header - spec", "header"),
        ("c2po -", "specification"),
    ]:
        place.run(line, **closed).is_(6, err=message(line.split()[0], f"cannot read {what}"))
    place.run("r2u2 program trace", **closed).is_(0, LINES)


def test_no_permission(place):
    place.grants()
    more = for_nobody(place)
    for name in ["spec", "program", "trace"]:
        shutil.copy(place.folder / name, place.folder / f"locked-{name}")
        os.chmod(place.folder / f"locked-{name}", 0)
    place.file("kept", "kept")
    os.chmod(place.folder / "kept", 0o444)
    for line, what in [
        ("r2u2 locked-program", "program"),
        ("r2u2 --source locked-spec", "specification"),
        ("r2u2 program locked-trace", "trace"),
        ("c2po locked-spec", "specification"),
        ("c2po --header locked-trace spec", "header"),
        ("c2po --show locked-program", "program"),
        ("c2po -o kept spec", "output"),
        ("c2po -o closed/out spec", "output"),
    ]:
        place.run(line, **more).is_(6, err=message(line.split()[0], f"cannot open {what}"))
    same("the file that may not be written", place.text("kept"), "kept")


def for_nobody(place):
    """Makes runs those of a user without rights; where that is this user nothing has to be done."""
    closed = place.folder / "closed"
    closed.mkdir()
    os.chmod(closed, 0o555)
    if os.geteuid():
        return {}
    os.chmod(place.folder, 0o755)
    for name, path in place.programs.items():
        place.programs[name] = shutil.copy(path, place.folder / f"copy-of-{name}")
        os.chmod(place.programs[name], 0o755)
    try:
        place.run("r2u2 --help", preexec_fn=becomes_nobody)
    except (OSError, subprocess.SubprocessError):
        pytest.skip("nobody can't run the programs here")
    return {"preexec_fn": becomes_nobody}


def test_links_are_followed(place):
    place.grants()
    for name in ["spec", "trace"]:
        os.symlink(name, place.folder / f"link-to-{name}")
    place.run("r2u2 --source link-to-spec link-to-trace").is_(0, LINES)
    place.file("old", "old")
    os.symlink("old", place.folder / "link")
    place.run("c2po -o link spec").is_(0)
    same("the link", os.readlink(place.folder / "link"), "old")
    same("what it leads to", place.text("old"), place.text("program"))


def test_a_refused_text_leaves_the_output(place):
    place.file("wrong", WRONG)
    place.file("kept", "kept")
    place.run("c2po -o kept wrong").is_(2, err="c2po: line 1: unknown name\n")
    same("the older file", place.text("kept"), "kept")
    place.run("c2po -o none wrong").is_(2, err="c2po: line 1: unknown name\n")
    same("a new file", os.path.exists(place.folder / "none"), False)


def test_an_output_is_emptied(place):
    place.grants()
    place.file("out", "x" * 100_000)
    place.run("c2po -o out spec").is_(0)
    same("the output", place.text("out"), place.text("program"))
    place.run("c2po spec").is_(0)
    same("spec.bin", place.text("spec.bin"), place.text("program"))


def test_input_and_output_as_one_file(place):
    place.grants()
    place.file("a", SPEC)
    place.run("c2po -o a a").is_(0)
    same("the file", place.text("a"), place.text("program"))
    place.run("c2po --show -o a a").is_(0)
    place.run("r2u2 --source a trace").is_(0, LINES)
    place.file("truth", "FTSPEC f: true;\n")
    place.run("r2u2 --source truth truth").is_(0, "f:0,T\n")


# ---- streams


def test_the_standard_streams(place):
    place.grants()
    for line, give in [
        ("r2u2 program", TRACE),
        ("r2u2 program -", TRACE),
        ("r2u2 --source spec -", TRACE),
        ("r2u2 --source - trace", SPEC),
        ("r2u2 - trace", place.text("program")),
    ]:
        place.run(line, give).is_(0, LINES)
    place.run("c2po -o - -", SPEC).is_(0, place.text("program"))
    place.run("c2po --header - -o other spec", TRACE).is_(0)
    same("the program over the header", place.text("other"), place.text("program"))


def test_both_files_are_one_stream(place):
    program = place.compiled().read_bytes()
    place.run("r2u2 --source - -", SPEC).is_(0)
    place.run("r2u2 - -", program).is_(0)
    place.run("r2u2 - -", program + TRACE.encode()).is_(3, err="r2u2: program: trailing\n")
    place.run("c2po --header - -", SPEC).is_(4, err="c2po: header: no header\n")


def test_a_fifo(place):
    place.grants()
    for line, text, fifo in [
        ("r2u2 program fifo", TRACE, "trace"),
        ("r2u2 --source fifo trace", SPEC, "spec"),
        ("r2u2 fifo trace", place.text("program"), "program"),
    ]:
        os.mkfifo(place.folder / "fifo")
        run = place.started(line.split(), stdin=subprocess.DEVNULL)
        with open(place.folder / "fifo", "wb") as into:
            into.write(text.encode("latin-1"))
        finish(run, 0, LINES)
        os.unlink(place.folder / "fifo")
    os.mkfifo(place.folder / "out")
    run = place.started("c2po -o out spec".split())
    with open(place.folder / "out", "rb") as out:
        same("the output", out.read().decode("latin-1"), place.text("program"))
    finish(run, 0)


def test_a_nonblocking_input(place):
    place.compiled(PLAIN)
    read, write = os.pipe()
    os.set_blocking(read, False)
    os.write(write, b"1\n0\n1")
    try:
        place.run("r2u2 program", stdin=read).is_(6, "f:0,T\nf:1,F\n", "r2u2: cannot read trace\n")
        place.run("c2po -", stdin=read).is_(6, err="c2po: cannot read specification\n")
        place.run("r2u2 -", stdin=read).is_(6, err="r2u2: cannot read program\n")
    finally:
        os.close(read)
        os.close(write)


def test_a_nonblocking_output(place):
    place.compiled(PLAIN)
    place.file("trace", "1\n" * MANY)
    read, write = os.pipe()
    os.set_blocking(write, False)
    result = place.run("r2u2 program trace", stdout=write)
    os.close(write)
    with open(read, "rb") as pipe:
        out = pipe.read().decode("latin-1")
    result.is_(7, err="r2u2: cannot write output\n")
    wanted = "".join(f"f:{k},T\n" for k in range(MANY))
    same("that the front of the lines is out", wanted.startswith(out) and len(out) > 4000, True)


def row_by_row(line, place, steps):
    """Gives each row alone, and compares the lines that are out before the next one."""
    run = place.started(line.split())
    for row, lines in steps:
        run.stdin.write(row.encode())
        run.stdin.flush()
        for wanted in lines:
            same("a line", read_line(run.stdout.fileno()), wanted + "\n")
        silent(run.stdout.fileno())
    return run


def test_a_trace_by_pipe_is_printed_line_by_line(place):
    place.grants()
    steps = [
        ("# request,grant\n", []),
        ("1,0\n", []),
        ("0,1\n", ["granted:0,T", "granted:1,T"]),
        ("1,", []),
        ("0\n0,0\n", []),
        ("0,0\n", []),
        ("0,0\n", ["granted:2,F", "granted:3,T", "granted:4,T", "granted:5,T"]),
    ]
    for line in ["r2u2 program", "r2u2 program -", "r2u2 --source spec"]:
        finish(row_by_row(line, place, steps), 0)


def test_runs_and_stamps_by_pipe(place):
    place.grants()
    steps = [("1,0\n", []), ("0,0\n", []), ("0,1\n", ["granted:2,T"]), ("0,0\n", ["granted:3,T"])]
    finish(row_by_row("r2u2 --runs program", place, steps), 0)
    place.compiled(PLAIN)
    stamped = [("@0,1\n", ["f:0,T"]), ("@3,0\n", ["f:1,T", "f:2,T", "f:3,F"]), ("@4,1\n", ["f:4,T"])]
    finish(row_by_row("r2u2 --timed program", place, stamped), 0)


def test_a_fault_of_a_trace_by_pipe(place):
    place.compiled(PLAIN)
    steps = [("1\n", ["f:0,T"]), ("0\n", ["f:1,F"]), ("2\n", [])]
    run = row_by_row("r2u2 program", place, steps)
    finish(run, 4, err="r2u2: trace line 3: out of range in column 1\n")


def test_a_last_line_without_a_newline(place):
    place.compiled(PLAIN)
    finish(row_by_row("r2u2 program", place, [("1\n", ["f:0,T"]), ("0", [])]), 0, "f:1,F\n")


def test_a_terminal(place):
    place.compiled(PLAIN)
    desk, seat = pty.openpty()
    modes = termios.tcgetattr(seat)
    modes[3] &= ~termios.ECHO
    modes[1] &= ~termios.OPOST
    termios.tcsetattr(seat, termios.TCSANOW, modes)
    run = place.started(["r2u2", "program"], stdin=seat, stdout=seat, stderr=subprocess.PIPE)
    try:
        for row, line in [(b"1\n", "f:0,T\n"), (b"0\n", "f:1,F\n")]:
            os.write(desk, row)
            same("a line", read_line(desk), line)
        os.write(desk, b"\x04")
        finish(run, 0)
    finally:
        os.close(seat)
        os.close(desk)


# ---- memory and stack


def test_too_little_memory_is_printed_before_the_first_row(place):
    names = [f"p{k}" for k in range(8)]
    windows = "".join(f"FTSPEC f_{name}: F[0,1048576] {name};\n" for name in names)
    place.compiled(f"INPUT {', '.join(names)}: bool;\n{windows}")
    place.file("trace", "1,0,0,0,0,0,0,1\n" * 10)
    little = limits(resource.RLIMIT_AS, 60 << 20)
    for line in ["r2u2 program trace", "r2u2 --source program.c2po trace"]:
        place.run(line, preexec_fn=little).is_(8, err="r2u2: out of memory\n")


def with_stack(kib):
    return limits(resource.RLIMIT_STACK, kib << 10)


def test_the_deepest_texts_within_the_stated_stack(place):
    stack = with_stack(place.stack or STACK_OF_TEXTS)
    for text in deepest.TEXTS:
        place.file("deep", text.text)
        place.file("rows", text.row * 3)
        for line in ["c2po -o deep.obs deep", "c2po --simplify -o deep.obs deep", "r2u2 --source deep rows"]:
            result = place.run(line, preexec_fn=stack)
            same(f"the status of {line.split()[0]} over {text.shows}", (result.status, result.err), (0, ""))


def test_the_deepest_programs_within_the_stated_stack(place):
    stack = with_stack(place.stack or STACK_OF_PROGRAMS)
    for text in deepest.TEXTS:
        place.file("deep", text.text)
        place.file("rows", text.row * 3)
        place.run("c2po -o deep.obs deep").is_(0)
        for line in ["r2u2 deep.obs rows", "c2po --upgrade -o again deep.obs", "c2po --show -o shown deep.obs"]:
            result = place.run(line, preexec_fn=stack)
            same(f"the status of {line} over {text.shows}", (result.status, result.err), (0, ""))
