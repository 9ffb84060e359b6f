"""Completion and syntax: each option is offered, and each token of the examples has its colour."""

import json
import re
import shutil
import subprocess
import unittest

from support import PATIENCE, ROOT, TOOLS, Case, shell, tool
from r2u2tools.common.source import tokens

COMPLETIONS = ROOT / "completions"
EDITORS = ROOT / "editors"
EXAMPLES = sorted((ROOT / "examples").glob("**/*.c2po"))
# The tools that are installed, as the Makefile lists them.
INSTALLED = re.search(r"^TOOLS = (.*)$", (ROOT / "Makefile").read_text(), re.M)[1].split()
NAMES = ("r2u2", "c2po", *(f"r2u2-{name}" for name in INSTALLED))
# What a token is, and what the two syntaxes call it.
KINDS = {
    "section": ("STRUCT INPUT DEFINE FTSPEC PTSPEC", "keyword.control.section", "c2poSection"),
    "type": ("bool int set", "storage.type", "c2poType"),
    "truth": ("true false", "constant.language", "c2poTruth"),
    "quantifier": ("foreach forsome forexactly foratleast foratmost", "keyword.control.quantifier", "c2poQuantifier"),
    "temporal": ("F G U R S O H", "keyword.operator.temporal", "c2poTemporal"),
    "operator": ("<-> -> => := == != <= >= && || - + * / % < > ! .", "keyword.operator", "c2poOperator"),
    "punctuation": ("( ) { } [ ] , ; :", "punctuation", ""),
}


def kind_of(token, following):
    """What a token is, and its names in the grammar and in vim."""
    for words, grammar, vim in KINDS.values():
        if token.text in words.split():
            return grammar, vim
    if token.text.isdigit():
        return "constant.numeric", "c2poNumber"
    return ("entity.name", "c2poName") if following in (":", ":=") else ("variable.other", "")


def wanted(text):
    """Each token with its kind, and a comment with that of a comment, by place."""
    found = tokens(text)
    after = [token.text for token in found[1:]] + [""]
    kinds = {token.start: kind_of(token, following) for token, following in zip(found, after)}
    comments = {part.start(): ("comment.line.double-dash", "c2poComment") for part in re.finditer("--", text)}
    return kinds | comments


def needs(program):
    path = shutil.which(program)
    if not path:
        raise unittest.SkipTest(f"no {program} on the path")
    return path


class Grammar(Case):
    """The grammar for VS Code, by the rule of TextMate: the first pattern that fits at the first place where one does."""

    def coloured(self, text):
        patterns = json.loads((EDITORS / "vscode/syntaxes/c2po.tmLanguage.json").read_text())["patterns"]
        rules = [(re.compile(it["match"]), it["name"].removesuffix(".c2po")) for it in patterns]
        start = 0
        for line in text.splitlines(keepends=True):
            place = 0
            while found := [(part.start(), k, part) for k, (rule, _) in enumerate(rules) if (part := rule.search(line, place))]:
                at, k, part = min(found, key=lambda it: it[:2])
                yield start + at, rules[k][1]
                place = part.end()
            start += len(line)

    def test_each_token_of_the_examples(self):
        for path in EXAMPLES:
            text = path.read_text()
            names = {place: grammar for place, (grammar, _) in wanted(text).items()}
            self.assertEqual(dict(self.coloured(text)), names, path.name)

    def test_the_extension_has_its_files(self):
        package = json.loads((EDITORS / "vscode/package.json").read_text())["contributes"]
        for path in (package["languages"][0]["configuration"], package["grammars"][0]["path"]):
            json.loads((EDITORS / "vscode" / path).read_text())


class Vim(Case):
    def coloured(self, path):
        """The name of the syntax at each place of a file."""
        out = self.folder / "names"
        script = self.file(
            "ask.vim",
            "let names = []\n"
            "for line in range(1, line('$'))\n"
            "  for column in range(1, len(getline(line)))\n"
            "    call add(names, (line2byte(line) + column - 2) . ' ' . synIDattr(synID(line, column, 1), 'name'))\n"
            "  endfor\n"
            "endfor\n"
            f"call writefile(names, '{out}')\n"
            "quitall!\n",
        )
        words = [needs("vim"), "-Nu", "NONE", "-i", "NONE", "-n", "-es", "-c", f"set runtimepath^={EDITORS}/vim"]
        words += ["-c", "filetype on", "-c", "syntax on", "-c", f"edit {path}", "-c", f"source {script}"]
        subprocess.run(words, stdin=subprocess.DEVNULL, timeout=PATIENCE)
        if not out.exists():
            raise unittest.SkipTest("this vim has no syntax")
        return dict((int(line.partition(" ")[0]), line.partition(" ")[2]) for line in out.read_text().splitlines())

    def test_each_token_of_the_examples(self):
        for path in EXAMPLES:
            found = self.coloured(path)
            for place, (_, name) in wanted(path.read_text()).items():
                self.assertEqual(found[place], name, (path.name, place))


class Completion(Case):
    def options(self, name):
        """The options of a program or a tool, as its man page has them."""
        page = (ROOT / "docs/man" / f"{name}.1").read_text()
        lines = re.findall(r"^\.It (Fl .*)", page, re.M)
        found = {word for line in lines for word in re.findall(r"(?:Fl |, )(?!Fl)(-?[A-Za-z][\w-]*)", line)}
        return {f"-{word}" for word in found} - {"-h"}

    def test_man_pages_have_the_options_of_the_help(self):
        for name in NAMES[2:]:
            _, out, _ = tool(name.removeprefix("r2u2-"), "--help")
            told = set(re.findall(r"^  (?:-h, )?(--?[a-z][a-z-]*)", out, re.M))
            self.assertEqual(told - {"--help"}, self.options(name) - {"--help"}, name)

    def offered(self, text):
        return {word.partition("\t")[0] for word in text.split("\n") if word}

    def check(self, name, found):
        wanted = self.options(name) | {"--help"}
        self.assertEqual({it for it in found if it.startswith("--")}, {it for it in wanted if it.startswith("--")}, name)

    def test_bash(self):
        line = 'source "$FILE"; COMP_WORDS=("$NAME" --); COMP_CWORD=1; _r2u2; printf "%s\\n" "${COMPREPLY[@]}"'
        for name in NAMES:
            status, out, errors = shell(line, FILE=COMPLETIONS / "r2u2.bash", NAME=name)
            self.assertEqual((status, errors), (0, ""))
            self.check(name, self.offered(out))

    def test_bash_completes_files(self):
        self.file("grant.c2po", "")
        line = 'source "$FILE"; cd "$FOLDER"; COMP_WORDS=(r2u2 --source gr); COMP_CWORD=2; _r2u2; echo "${COMPREPLY[@]}"'
        told = shell(line, FILE=COMPLETIONS / "r2u2.bash", FOLDER=self.folder)
        self.assertEqual(told, (0, "grant.c2po\n", ""))

    def test_fish(self):
        fish = needs("fish")
        for name in NAMES:
            script = f"source {COMPLETIONS}/r2u2.fish; complete -C '{name} --'"
            ran = subprocess.run([fish, "--no-config", "-c", script], stdout=subprocess.PIPE, encoding="utf-8")
            self.check(name, {it for it in self.offered(ran.stdout) if it.startswith("--")})

    def test_zsh(self):
        """What zsh offers; that it reads the file whole."""
        zsh, file = needs("zsh"), COMPLETIONS / "_r2u2"
        for name in NAMES:
            line = f'_arguments() {{ print -rl -- "$@"; }}; service={name}; source {file}'
            ran = subprocess.run([zsh, "-f", "-c", line], stdout=subprocess.PIPE, stderr=subprocess.PIPE, encoding="utf-8")
            self.assertEqual((ran.returncode, ran.stderr), (0, ""))
            self.check(name, set(re.findall(r"^(?:\([^)]*\)|\*)?(--[a-z-]+)", ran.stdout, re.M)))
        self.assertEqual(set(file.read_text().splitlines()[0].split()[1:]), set(NAMES))


class Installed(Case):
    """make install puts all where it belongs, and make uninstall takes it away."""

    def make(self, goal):
        for name in ("r2u2", "c2po"):
            self.file(name, "#!/bin/sh\n").chmod(0o755)
        for name in ("libr2u2.a", "libr2u2_heap.a", "libr2u2_arena.a", "libr2u2.so"):
            self.file(name, "")
        line = 'make -C "$ROOT" -s "$GOAL" DESTDIR="$INTO" PREFIX=/usr BUILT="$FOLDER/r2u2 $FOLDER/c2po" EMBED="$FOLDER" SHARED_OBJECT="$FOLDER/libr2u2.so"'
        told = shell(line, ROOT=ROOT, GOAL=goal, INTO=self.folder / "into", FOLDER=self.folder)
        self.assertEqual(told, (0, "", ""))
        into = self.folder / "into/usr"
        return {str(path.relative_to(into)) for path in into.rglob("*") if not path.is_dir()}

    def test_all_files(self):
        needs("make")
        found = self.make("install")
        for name in NAMES:
            for path in (f"bin/{name}", f"share/man/man1/{name}.1", f"share/bash-completion/completions/{name}"):
                self.assertIn(path, found)
            self.assertIn(f"share/fish/vendor_completions.d/{name}.fish", found)
        for name in NAMES[2:]:
            status, out, errors = shell('"$TOOL" --help', TOOL=self.folder / "into/usr/bin" / name)
            self.assertEqual((status, errors), (0, ""))
            self.assertIn(f"usage: {name} ", out)
        for path in ("lib/libr2u2.a", "lib/libr2u2_heap.a", "lib/libr2u2_arena.a", "lib/r2u2/libr2u2.so", "include/r2u2.h", "include/r2u2_checked.h"):
            self.assertIn(path, found)
        for path in (ROOT / "docs/man").iterdir():
            self.assertIn(f"share/man/man{path.suffix[1:]}/{path.name}", found)
        for path in ("lib/pkgconfig/r2u2.pc", "share/r2u2/embed/rust/Cargo.toml"):
            text = (self.folder / "into/usr" / path).read_text(encoding="utf-8")
            self.assertIn((ROOT / "VERSION").read_text(encoding="utf-8").strip(), text)
            self.assertNotIn("@", text)
        lib = {str(path.relative_to(TOOLS)) for path in (TOOLS / "lib").rglob("*.*") if path.is_file() and path.suffix != ".pyc"}
        self.assertEqual({path.partition("/tools/")[2] for path in found if "/tools/lib/" in path}, lib)
        self.assertEqual(self.make("uninstall"), set())

    def test_the_library_of_budget(self):
        """An installed budget asks the library that was installed with it: bytes can be limited where that is there."""
        needs("make")
        self.make("install")
        into = self.folder / "into/usr"
        asked = lambda: shell('env -u R2U2_LIBRARY "$TOOL" --max-bytes 1 nowhere.c2po', TOOL=into / "bin/r2u2-budget")
        self.assertNotIn("libr2u2.so", asked()[2])
        (into / "lib/r2u2/libr2u2.so").unlink()
        status, out, errors = asked()
        self.assertEqual((status, out), (2, ""))
        self.one_line(errors)
        self.assertIn(f"no {into.resolve()}/lib/r2u2/libr2u2.so: ", errors)
