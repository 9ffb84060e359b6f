"""Runs and compiles the code blocks of pages.

The word after the three backticks says what a block is:

  console   commands after `$ `, with what they print; `> ` begins a further line of a command,
            and a line `...` is any lines
  c2po      a specification, which has to compile
  csv       a trace, which the specification before it takes
  c, cpp    a listing, which has to compile over embed/include/ and dev/stubs/
  python    a listing, which has to parse
  sh        a script, which has to parse; commands that a test can run belong into console
  rattle    lines of a crate
  antt      lines of a definition, which dev/pages compares
  yaml, json, toml, groovy, text   anything else

`title="NAME"` makes a file of the block, in a folder that all blocks of a page
share. `file="PATH"` says that the block is a file of the repository, which other
tests compile or run. `needs="NAME"` skips a block where no program has the name; the name
`library` is build/x86_64/libr2u2.a, `libr2u2.so` the shared object of build/. Without
these two a block isn't skipped but wrong, where the programs and what builds a library
are there.
"""

import ast
import concurrent.futures
import dataclasses
import json
import os
import re
import shutil
import signal
import subprocess
import tempfile
from pathlib import Path
from typing import Dict, Iterator, List, Optional

SECONDS = 240
FENCE = re.compile(r"^( *)```(\w*)([^\n`]*)\n(.*?)^\1```[ \t]*$", re.S | re.M)
KNOWN = {"console", "c2po", "csv", "c", "cpp", "python", "sh", "rattle", "antt", "yaml", "json", "toml", "groovy", "text"}
# Commands that a test of two minutes can't run: they prove, build, install, or need other machines.
UNTRIED = {"make", "rt", "apt-get", "sbatch", "cargo", "git", "bench/run", "pkg-config", "--sshloginfile"}
# What compiles listings.
COMPILERS = {"c": "cc", "cpp": "c++"}
# What `make check-embed` needs to build the library, next to what proves it.
BUILDERS = ["cc", "make"]
LIBRARIES = ("library", "libr2u2.so")
MARK = "--- of this command --- "


@dataclasses.dataclass
class Block:
    """A block of a page: its place, its kind, its marks and its text."""

    page: Path
    line: int
    kind: str
    marks: Dict[str, str]
    text: str
    shown: Optional[str] = None


@dataclasses.dataclass
class Place:
    """Where pages run: the repository, and the programs where they are there."""

    root: Path
    programs: Dict[str, Optional[str]]
    # Whether a block is wrong without a library that could have been built.
    library: bool = True

    def wants(self, need: str) -> bool:
        """Whether what a block needs isn't there and could have been built."""
        could = all(self.programs.values()) and all(map(shutil.which, BUILDERS))
        return self.library and need in LIBRARIES and could and not self.has(need)

    def has(self, need: str) -> bool:
        if need == "library":
            return all((self.root / "build/x86_64" / name).exists() for name in ("libr2u2.a", "libr2u2_heap.a"))
        if need == "libr2u2.so":
            return (self.root / "build/libr2u2.so").exists()
        return shutil.which(need) is not None


def blocks_of(page: Path, text: str) -> List[Block]:
    """The blocks of a page in order."""
    found = []
    for it in FENCE.finditer(text):
        inner = re.sub(rf"^{it[1]}", "", it[4], flags=re.M) if it[1] else it[4]
        marks = dict(re.findall(r'(\w+)="([^"]*)"', it[3]))
        found.append(Block(page, text.count("\n", 0, it.start()) + 1, it[2], marks, inner))
    return found


def place_of(root: Path, library: bool) -> Place:
    """Returns the programs that the environment names, else the proved ones of build/, else the unproved ones."""
    programs: Dict[str, Optional[str]] = {}
    for name in ("r2u2", "c2po"):
        asked = os.environ.get(name.upper())
        places = [asked] if asked else [root / "build" / name, root / "build/unproved" / f"{name}.run"]
        programs[name] = next((os.path.abspath(path) for path in places if os.access(path, os.X_OK)), None)
    return Place(root, programs, library)


def commands_of(text: str) -> List[List[str]]:
    """Each command of a console block with the lines that it prints; a command may go on after `\\` or `> `."""
    found: List[List[str]] = []
    lines = text.rstrip("\n").split("\n")
    while lines:
        line = lines.pop(0)
        if not line.startswith("$ "):
            if not found:
                raise ValueError("begins without a command")
            found[-1].append(line)
            continue
        command = line[2:]
        while lines and lines[0].startswith("> "):
            command += "\n" + lines.pop(0)[2:]
        found.append([command])
    return found


def agree(wanted: List[str], given: List[str]) -> bool:
    """Whether lines are those that a page shows, where a line `...` is any lines."""
    form = "".join("(?:.*\n)*?" if line == "..." else re.escape(line.rstrip()) + "\n" for line in wanted)
    return re.fullmatch(form, "".join(line.rstrip() + "\n" for line in given)) is not None


def run_commands(commands: List[List[str]], folder: Path, place: Place) -> List[List[str]]:
    """Runs the commands of a block in one shell; the lines that each prints."""
    script = "code=0\n"
    for number, (command, *_) in enumerate(commands):
        script += f"printf '\\n%s\\n' '{MARK}{number}'\n(exit $code)\n{command}\ncode=$?\n"
    environment = {key: value for key, value in os.environ.items() if key not in ("R2U2", "C2PO")}
    environment.update({name.upper(): path for name, path in place.programs.items() if path})
    environment["PATH"] = f"{folder / '.bin'}:{environment.get('PATH', '')}"
    environment.update(LC_ALL="C.UTF-8", PYTHONDONTWRITEBYTECODE="1", COLUMNS="80")
    with subprocess.Popen(
        ["bash", "-c", "exec 2>&1\n" + script], cwd=folder, env=environment, stdin=subprocess.DEVNULL,
        stdout=subprocess.PIPE, encoding="utf-8", errors="replace", start_new_session=True,
    ) as ran:
        try:
            output = ran.communicate(timeout=SECONDS)[0]
        except subprocess.TimeoutExpired:
            os.killpg(ran.pid, signal.SIGKILL)
            raise
    parts = re.split(rf"\n{re.escape(MARK)}\d+\n", output)[1:]
    given = [part.rstrip("\n").split("\n") if part.strip("\n") else [] for part in parts]
    return given + [["(the shell ended before)"]] * (len(commands) - len(given))


def run_console(block: Block, folder: Path, place: Place) -> Iterator[str]:
    """Runs the commands of a block, and compares what each prints; the block gets the lines that they print."""
    try:
        commands = commands_of(block.text)
    except ValueError as error:
        yield str(error)
        return
    shown = ""
    for (command, *wanted), given in zip(commands, run_commands(commands, folder, place)):
        while wanted and wanted[-1] == "":
            wanted.pop()
        is_shown = agree(wanted, given)
        lines = wanted if is_shown else given
        shown += "$ " + command.replace("\n", "\n> ") + "\n" + "".join(f"{line}\n" for line in lines)
        if not is_shown:
            yield f"$ {command}\nprints\n" + "\n".join(given)
    block.shown = shown


def run_tool(words: List[str], text: str = "", cwd: Optional[Path] = None) -> Iterator[str]:
    """Runs a compiler or a program over a text; what it says where it fails."""
    ran = subprocess.run(
        words, input=text, cwd=cwd, stdout=subprocess.PIPE, stderr=subprocess.STDOUT, encoding="utf-8", timeout=SECONDS,
    )
    if ran.returncode:
        yield ran.stdout.strip() or f"{words[0]} ends with {ran.returncode}"


def compile_listing(block: Block, place: Place) -> Iterator[str]:
    """Compiles a listing in C or C++; statements without a function are put into one."""
    language, standard = ("c", "-std=c11") if block.kind == "c" else ("c++", "-std=c++17")
    folders = [f"-I{place.root / name}" for name in ("embed/include", "dev/stubs")]
    text = block.text
    if not re.search(r"^(?:[A-Za-z_].*\)|#include.*|.*class .*|.*template.*)(?:\s*\{.*)?$", text, re.M) or block.marks.get("in") == "function":
        text = "#include <string.h>\n#include \"page.h\"\nvoid page(void);\nvoid page(void) {\n" + text + "\n}\n"
    yield from run_tool([COMPILERS[block.kind], "-x", language, standard, "-fsyntax-only", "-Wall", "-Werror=implicit-function-declaration", *folders, "-"], text)


class Session:
    """The blocks of one page, run in order in a separate folder."""

    def __init__(self, place: Place, folder: Path):
        self.place, self.folder = place, folder
        self.skipped: List[str] = []
        self.spec: Optional[Path] = None
        self.count = 0
        for entry in place.root.iterdir():
            if entry.name not in ("build", ".git"):
                (folder / entry.name).symlink_to(entry)
        (folder / "build").mkdir()
        self.link_installed(folder / ".bin")
        for name, path in place.programs.items():
            if path:
                (folder / "build" / name).symlink_to(path)
        for name in ("x86_64", "libr2u2.so"):
            if (place.root / "build" / name).exists():
                (folder / "build" / name).symlink_to(place.root / "build" / name)

    def link_installed(self, folder: Path) -> None:
        """The names under which `make install` puts programs and tools on the path."""
        folder.mkdir()
        for name, path in self.place.programs.items():
            if path:
                (folder / name).symlink_to(path)
        for tool in (self.place.root / "tools").iterdir():
            if tool.is_file():
                (folder / f"r2u2-{tool.name}").symlink_to(tool)

    def keep(self, block: Block) -> Path:
        """The file of a block: that of its title, or a new one."""
        self.count += 1
        file = self.folder / (block.marks.get("title") or f"block-{self.count}.{block.kind}")
        file.parent.mkdir(parents=True, exist_ok=True)
        if not file.resolve().is_relative_to(self.folder.resolve()) if hasattr(file, "is_relative_to") else False:
            raise ValueError(f"{file.name} is a file of the repository")
        file.write_text(block.text, encoding="utf-8")
        if block.kind == "sh":
            file.chmod(0o755)
        return file

    def lacks(self, block: Block) -> Optional[str]:
        """What a block needs and isn't there."""
        need = next((it for it in block.marks.get("needs", "").split() if not self.place.has(it)), None)
        compiler = COMPILERS.get(block.kind, "")
        if not need and compiler and not shutil.which(compiler):
            return compiler
        runs = block.kind in ("console", "c2po", "csv")
        return need or ("r2u2 or c2po" if runs and not all(self.place.programs.values()) else None)

    def faults(self, block: Block) -> Iterator[str]:
        """What is wrong with a block, each as a text."""
        if "file" in block.marks:
            yield from same_as_file(block, self.place.root / block.marks["file"])
            if "title" in block.marks:
                self.keep(block)
            return
        need = self.lacks(block)
        if need:
            if self.place.wants(need):
                yield f'not run without {need}: "make check-embed TARGET=x86_64" builds it, and --no-library skips the block'
            else:
                self.skipped.append(need)
            if block.kind == "c2po":
                self.spec = self.keep(block)
            return
        if block.kind == "console":
            yield from run_console(block, self.folder, self.place)
            return
        file = self.keep(block)
        if block.kind == "c2po":
            self.spec = file
            if "fails" not in block.marks:
                yield from run_tool([str(self.place.programs["c2po"]), "-o", str(self.folder / "block.obs"), str(file)])
        elif block.kind == "csv" and "title" not in block.marks and self.spec:
            yield from run_tool([str(self.place.programs["r2u2"]), "--source", str(self.spec), str(file)])
        else:
            yield from self.parses(block, file)

    def parses(self, block: Block, file: Path) -> Iterator[str]:
        """Listings that aren't run: each parses, or compiles."""
        if block.kind in ("c", "cpp"):
            yield from compile_listing(block, self.place)
        elif block.kind == "sh":
            yield from run_tool(["bash", "-n", str(file)])
            yield from runnable(block)
        elif block.kind == "python":
            try:
                ast.parse(block.text)
            except SyntaxError as error:
                yield str(error)
        elif block.kind == "json":
            try:
                json.loads(block.text)
            except ValueError as error:
                yield str(error)


def runnable(block: Block) -> Iterator[str]:
    """The commands of a script without a title that a test could run."""
    if "title" in block.marks:
        return
    for line in block.text.splitlines():
        word = line.split()[0] if line.split() else "#"
        if not word.startswith("#") and not any(it in line for it in UNTRIED):
            yield f"belongs into a block of console: {line}"


def same_as_file(block: Block, file: Path) -> Iterator[str]:
    """Whether a block is a file of the repository; the block gets the file's text."""
    if not file.is_file():
        yield f"no file {block.marks['file']}"
        return
    block.shown = file.read_text(encoding="utf-8")
    if block.shown != block.text:
        yield f"differs from {block.marks['file']}"


def strange(block: Block) -> Iterator[str]:
    if block.kind not in KNOWN:
        yield f"{block.kind or 'nothing'} says what this block is"


def rewrite(page: Path, text: str, blocks: List[Block]) -> None:
    """Puts what commands print into a page."""
    for block in blocks:
        if block.shown is not None and block.shown != block.text:
            text = text.replace(f"\n{block.text}```", f"\n{block.shown}```", 1)
    page.write_text(text, encoding="utf-8")


def check_page(page: Path, text: str, place: Place, write: bool = False) -> List[str]:
    """The faults of all blocks of a page; a text `skipped: WHY` for each that was passed over."""
    name, found = page.relative_to(place.root), []
    blocks = blocks_of(page, text)
    with tempfile.TemporaryDirectory() as folder:
        session = Session(place, Path(folder))
        for block in blocks:
            try:
                for fault in [*strange(block), *session.faults(block)]:
                    found.append(f"{name}:{block.line}: {fault}")
            except (OSError, ValueError, subprocess.TimeoutExpired) as error:
                found.append(f"{name}:{block.line}: {error}")
    if write:
        rewrite(page, text, blocks)
    return found + [f"skipped: {why}" for why in session.skipped]


def check(root: Path, texts: Dict[Path, str], write: bool = False, library: bool = True) -> List[str]:
    """The faults of the blocks of all pages, pages side by side; with `write` outputs are put into the pages.

    Without `library` blocks are skipped that need one, where none is built.
    """
    place = place_of(root, library)
    with concurrent.futures.ThreadPoolExecutor(os.cpu_count() or 1) as pool:
        done = pool.map(lambda it: check_page(it[0], it[1], place, write), texts.items())
    return [fault for faults in done for fault in faults]
