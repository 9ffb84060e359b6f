"""The tools as Python: they need 3.11 and its standard library alone, and pass the checkers of types and of names."""

import ast
import importlib.util
import shutil
import subprocess
import sys
import sysconfig
import tomllib
import unittest

from support import NAMES, ROOT, TOOLS, Case

FILES = [TOOLS / "r2u2-tools", *sorted((TOOLS / "lib").rglob("*.py"))]
PROJECT = TOOLS / "pyproject.toml"


def program(*names):
    """A checker of the machine; without it the test that needs it is skipped."""
    found = next((path for path in map(shutil.which, names) if path), None)
    if found is None:
        raise unittest.SkipTest(f"no {names[0]}: apt-get install {names[0]}")
    return found


def origin_of(name):
    """The place of a module."""
    found = importlib.util.find_spec(name)
    return found.origin if found else "nowhere"


class Python(Case):
    def check(self, words, cwd=TOOLS):
        """Runs a program, which finds nothing to say."""
        ran = subprocess.run(list(map(str, words)), stdout=subprocess.PIPE, stderr=subprocess.STDOUT, encoding="utf-8", cwd=cwd)
        self.assertEqual(ran.returncode, 0, ran.stdout[-6000:])

    def test_the_standard_library_is_enough(self):
        """Each module that is imported is one of the tools' own, or in the library's folder."""
        names = set()
        for path in FILES:
            for node in ast.walk(ast.parse(path.read_text(encoding="utf-8"), str(path))):
                names |= {it.name.partition(".")[0] for it in node.names} if isinstance(node, ast.Import) else set()
                names |= {node.module.partition(".")[0]} if isinstance(node, ast.ImportFrom) else set()
        folders = tuple(sysconfig.get_paths()[kind] for kind in ("stdlib", "platstdlib"))
        for name in names - {"r2u2tools"}:
            origin = origin_of(name)
            own = origin in ("built-in", "frozen") or origin.startswith(folders) and "-packages" not in origin
            self.assertTrue(own, f"{name} is in {origin}")

    def test_types(self):
        self.check([program("mypy"), "--config-file", PROJECT])

    def test_names(self):
        self.check([program("pyflakes3", "pyflakes"), *FILES, *(TOOLS / "tests").glob("*.py")])

    def test_style(self):
        self.check([program("ruff"), "check", "--config", PROJECT, "--no-cache", "."])


class Project(Case):
    def test_each_tool_is_a_command(self):
        from r2u2tools.__main__ import TOOLS as modules

        project = tomllib.loads(PROJECT.read_text(encoding="utf-8"))["project"]
        names = {"r2u2-tools", *(f"r2u2-{name}" for name in modules)}
        self.assertEqual(project["scripts"], dict.fromkeys(names, "r2u2tools.__main__:main"))
        self.assertEqual(project["version"], (ROOT / "VERSION").read_text(encoding="utf-8").strip())
        self.assertEqual(set(NAMES), set(modules))
        self.assertEqual(len({(TOOLS / name).read_bytes() for name in modules}), 1)

    def test_pip_installs_it(self):
        """In an environment of its own, without the network: the commands run, and find the table of messages."""
        env = {"PATH": "/usr/bin:/bin", "HOME": str(self.folder)}
        place = self.folder / "env"
        if subprocess.run([sys.executable, "-m", "venv", "--system-site-packages", place], capture_output=True, env=env).returncode:
            self.skipTest("no python3-venv: apt-get install python3-venv")
        source = self.folder / "copy"
        for part in ("tools", "docs/reference", "examples"):
            shutil.copytree(ROOT / part, source / part, symlinks=True)
        words = [place / "bin/python", "-m", "pip", "install", "-q", "--no-build-isolation", "--no-deps", "--no-index", "./tools"]
        ran = subprocess.run(words, capture_output=True, encoding="utf-8", cwd=source, env=env)
        if "No module named 'setuptools'" in ran.stderr:
            self.skipTest("no setuptools: apt-get install python3-setuptools")
        self.assertEqual(ran.returncode, 0, ran.stderr)
        ran = subprocess.run([place / "bin/r2u2-tools", "verdicts", "--help"], capture_output=True, encoding="utf-8", cwd="/", env=env)
        self.assertTrue(ran.stdout.startswith("usage: r2u2-verdicts"), ran)
        asks = "from r2u2tools.check.notes import rows; from r2u2tools.play.examples import examples; print(len(rows()) > 5, len(examples()) > 3)"
        ran = subprocess.run([place / "bin/python", "-c", asks], capture_output=True, encoding="utf-8", cwd="/", env=env)
        self.assertEqual((ran.stdout, ran.stderr), ("True True\n", ""))
