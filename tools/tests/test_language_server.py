"""check --server, by its protocol; and the editors that speak it, where they are there."""

import json
import os
import shutil
import signal
import subprocess
import sys
import time
import unittest
import zipfile

from support import DEV, PATIENCE, ROOT, TOOLS, Case, program, shell, with_signals
from r2u2tools.check.server import place_of, units

TEXT = """-- ein Kommentar: größer \N{GRINNING FACE}
STRUCT Unit: { load: int; off: bool; };
INPUT p, q: bool; x: int;
DEFINE
  hot := x > 40;
  limit := 1 + 1;
  soon := F[0,3] q;
  was := O[0,2] p;
  u := Unit(x, p);
  s := { p, q };
FTSPEC
  f: foreach(v: s)(v) -> soon;
  g: u.load < limit => hot;
PTSPEC
  h: was;
"""
URI = "file:///tmp/spec.c2po"


class Editor:
    """The other side of the protocol."""

    def __init__(self, errors=None, **env):
        words = [sys.executable, str(TOOLS / "check"), "--server"]
        self.child = subprocess.Popen(words, preexec_fn=with_signals, stdin=subprocess.PIPE, stdout=subprocess.PIPE, stderr=errors, env={**os.environ, **env})
        self.number, self.told = 0, []

    def send(self, message):
        raw = json.dumps({"jsonrpc": "2.0", **message}).encode()
        self.child.stdin.write(b"Content-Length: %d\r\n\r\n%s" % (len(raw), raw))
        self.child.stdin.flush()

    def read(self):
        size = 0
        while line := self.child.stdout.readline().strip():
            size = int(line.split(b":")[1])
        return json.loads(self.child.stdout.read(size))

    def ask(self, method, **params):
        """The whole response; what the server sends by itself meanwhile is kept."""
        self.number += 1
        self.send({"id": self.number, "method": method, "params": params})
        while (message := self.read()).get("id") != self.number:
            self.told.append(message)
        return message

    def tell(self, method, **params):
        self.send({"method": method, "params": params})

    def open(self, text, uri=URI):
        self.tell("textDocument/didOpen", textDocument={"uri": uri, "languageId": "c2po", "version": 1, "text": text})

    def faults(self):
        """The next faults that the server sends."""
        while True:
            message = self.told.pop(0) if self.told else self.read()
            if message.get("method") == "textDocument/publishDiagnostics":
                return message["params"]["diagnostics"]

    def end(self):
        self.ask("shutdown")
        self.tell("exit")
        return self.child.wait(PATIENCE)

    def close(self):
        self.child.terminate()
        try:
            self.child.wait(PATIENCE)
        except subprocess.TimeoutExpired:
            self.child.kill()
            self.child.wait()
        self.child.stdin.close()
        self.child.stdout.close()


def spot(text, token, nth=0):
    """A place of the protocol within a token."""
    place = -1
    for _ in range(nth + 1):
        place = text.index(token, place + 1)
    line = text.rfind("\n", 0, place) + 1
    return {"line": text[:place].count("\n"), "character": units(text[line:place])}


class Server(Case):
    def setUp(self):
        super().setUp()
        program("c2po")
        self.editor = Editor()
        self.addCleanup(self.editor.close)
        self.able = self.editor.ask("initialize", processId=None, rootUri=None, capabilities={})["result"]["capabilities"]
        self.editor.tell("initialized")

    def ask(self, method, text, token, nth=0, **more):
        given = {"textDocument": {"uri": URI}, "position": spot(text, token, nth), **more}
        return self.editor.ask(f"textDocument/{method}", **given)["result"]

    def test_a_session(self):
        for name in ("hoverProvider", "definitionProvider", "completionProvider", "documentFormattingProvider"):
            self.assertTrue(self.able[name])
        self.editor.open(TEXT)
        self.assertEqual(self.editor.faults(), [])
        change = {"textDocument": {"uri": URI, "version": 2}, "contentChanges": [{"text": TEXT.replace("-> soon", "-> son")}]}
        self.editor.tell("textDocument/didChange", **change)
        (fault,) = self.editor.faults()
        self.assertEqual((fault["severity"], fault["code"]), (1, "unknown name"))
        self.assertTrue(fault["message"].startswith("unknown name 'son' (did you mean 'soon'?)"))
        place = spot(TEXT, "soon;", 0)
        self.assertEqual(fault["range"], {"start": place, "end": {**place, "character": place["character"] + 3}})
        self.editor.tell("textDocument/didClose", textDocument={"uri": URI})
        self.assertEqual(self.editor.faults(), [])
        self.assertEqual(self.editor.end(), 0)

    def test_units_of_utf_16(self):
        text = "-- \N{GRINNING FACE}\n/* \N{GRINNING FACE} */"
        self.editor.open(text)
        fault = self.editor.faults()[0]
        self.assertEqual(fault["range"]["start"]["line"], 1)
        text = "FTSPEC f: true && \N{GRINNING FACE} && zz;\n"
        self.editor.tell("textDocument/didChange", textDocument={"uri": URI, "version": 2}, contentChanges=[{"text": text}])
        place = self.editor.faults()[0]["range"]
        self.assertEqual((place["start"]["character"], place["end"]["character"]), (18, 20))
        self.assertEqual(place_of(text, {"line": 0, "character": 20}), text.index(" && zz"))
        self.assertEqual(place_of(text, {"line": 0, "character": 999}), len(text) - 1)
        self.assertEqual(place_of(text, {"line": 9, "character": 0}), len(text))

    def test_hover(self):
        self.editor.open(TEXT)
        told = {
            ("p", 3): ["p: bool", "a signal, column 0"],
            ("hot", 0): ["hot := x > 40;", "bool, a definition", "delay 0 rows"],
            ("limit", 0): ["limit := 1 + 1;", "int, a definition"],
            ("soon", 1): ["soon := F[0,3] q;", "bool, a definition", "delay 3 rows", "slots", "steps a row"],
            ("was", 0): ["bool, a definition", "delay 0 rows", "boxes"],
            ("s := {", 0): ["s := { p, q };", "a set"],
            ("u :=", 0): ["u := Unit(x, p);", "a definition"],
            ("f:", 1): ["a requirement", "delay 3 rows"],
            ("g:", 0): ["a contract", "delay 0 rows"],
            ("v: s", 0): ["the member of a quantifier"],
            ("load <", 0): ["load: int", "a part of Unit"],
            ("Unit(", 0): ["a struct"],
            ("F[0", 0): ["within a to b rows p holds, at least once"],
            ("->", 0): ["where p holds, q does"],
        }
        for (token, nth), parts in told.items():
            with self.subTest(token):
                found = self.ask("hover", TEXT, token, nth)
                for part in parts:
                    self.assertIn(part, found["contents"]["value"])
        self.assertIsNone(self.ask("hover", TEXT, "Kommentar"))

    def test_hover_beside_a_fault(self):
        text = TEXT.replace("h: was;", "h: wass && p;")
        self.editor.open(text)
        self.assertEqual(len(self.editor.faults()), 1)
        self.assertIn("delay 3 rows", self.ask("hover", text, "soon", 1)["contents"]["value"])
        self.assertIn("a requirement", self.ask("hover", text, "h: wass")["contents"]["value"])

    def test_definitions(self):
        self.editor.open(TEXT)
        for (token, nth), (target, at) in {
            ("soon;", 0): ("soon :=", 0), ("limit =>", 0): ("limit :=", 0), ("load <", 0): ("load: int", 0),
            ("v) ->", 0): ("v: s", 0), ("q;", 0): ("q: bool", 0), ("Unit(", 0): ("Unit:", 0),
        }.items():
            with self.subTest(token):
                (found,) = self.ask("definition", TEXT, token, nth)
                self.assertEqual((found["uri"], found["range"]["start"]), (URI, spot(TEXT, target, at)))
        self.assertEqual(self.ask("definition", TEXT, "->"), [])

    def test_completion(self):
        self.editor.open(TEXT)
        labels = lambda token, nth=0: {it["label"] for it in self.ask("completion", TEXT, token, nth)["items"]}
        found = labels("soon;")
        self.assertTrue({"p", "x", "hot", "was", "v", "Unit", "F", "foreach", "FTSPEC"} <= found)
        self.assertFalse({"f", "g", "h"} & found)
        self.assertEqual(labels("load <"), {"load", "off"})
        self.assertNotIn("was", labels("q;"))
        items = self.ask("completion", TEXT, "soon;")["items"]
        self.assertIn({"label": "x", "kind": 6, "detail": "int"}, items)
        self.assertEqual([it["insertText"] for it in items if it["label"] == "G"], ["G[${1:0},${2:3}] "])

    def test_layout(self):
        self.editor.open("INPUT p:bool;\nFTSPEC f:p;")
        (edit,) = self.editor.ask("textDocument/formatting", textDocument={"uri": URI}, options={})["result"]
        self.assertEqual(edit["newText"], "INPUT p: bool;\nFTSPEC f: p;\n")
        self.assertEqual(edit["range"]["end"], {"line": 1, "character": 11})
        self.editor.open(TEXT)
        self.assertEqual(self.editor.ask("textDocument/formatting", textDocument={"uri": URI}, options={})["result"], [])

    def test_outline(self):
        self.editor.open(TEXT)
        found = self.editor.ask("textDocument/documentSymbol", textDocument={"uri": URI})["result"]
        self.assertEqual([it["name"] for it in found], "Unit p q x hot limit soon was u s f g h".split())

    def test_references_and_another_name(self):
        self.editor.open(TEXT)
        found = self.ask("references", TEXT, "q: bool", context={"includeDeclaration": True})
        self.assertEqual([it["range"]["start"]["line"] for it in found], [2, 6, 8 + 1])
        self.assertEqual(len(self.ask("references", TEXT, "q: bool", context={"includeDeclaration": False})), 2)
        self.assertEqual([it["range"]["start"]["line"] for it in self.ask("references", TEXT, "load <")], [1, 12])
        (edits,) = self.ask("rename", TEXT, "soon;", newName="later")["changes"].values()
        self.assertEqual([(it["range"]["start"]["line"], it["newText"]) for it in edits], [(6, "later"), (11, "later")])
        for name in ("p", "F", "2x", ""):
            given = {"textDocument": {"uri": URI}, "position": spot(TEXT, "soon;"), "newName": name}
            self.assertEqual(self.editor.ask("textDocument/rename", **given)["error"]["code"], -32602)
        self.assertIsNone(self.ask("rename", TEXT, "Kommentar", newName="later"))

    def test_what_was_meant_as_an_edit(self):
        text = TEXT.replace("-> soon", "-> son")
        self.editor.open(text)
        (fault,) = self.editor.faults()
        given = {"textDocument": {"uri": URI}, "range": fault["range"], "context": {"diagnostics": [fault]}}
        (action,) = self.editor.ask("textDocument/codeAction", **given)["result"]
        self.assertEqual(action["edit"]["changes"][URI], [{"range": fault["range"], "newText": "soon"}])
        start = {"line": 0, "character": 0}
        self.assertEqual(self.editor.ask("textDocument/codeAction", **{**given, "range": {"start": start, "end": start}})["result"], [])

    def test_a_text_that_is_too_long(self):
        self.editor.open("INPUT p: bool;\n" + "FTSPEC f: p;\n" * 160_000)
        (fault,) = self.editor.faults()
        self.assertIn("longer than 1048576 bytes", fault["message"])
        given = {"textDocument": {"uri": URI}, "position": {"line": 0, "character": 7}}
        self.assertEqual(self.editor.ask("textDocument/hover", **given)["error"]["code"], -32603)

    def test_a_newer_text_ends_a_check(self):
        text = "INPUT p: bool;\nFTSPEC\n" + "".join(f"f{k}: p && F[0,{k % 50}] no{k};\n" for k in range(9000))
        began = time.monotonic()
        self.editor.open(text)
        time.sleep(0.3)
        self.assertEqual(len(self.editor.ask("textDocument/documentSymbol", textDocument={"uri": URI})["result"]), 9001)
        self.editor.open(TEXT.replace("-> soon", "-> son"))
        (fault,) = self.editor.faults()
        self.assertIn("son", fault["message"])
        self.assertLess(time.monotonic() - began, 30)

    def test_what_it_cannot_serve(self):
        self.assertEqual(self.editor.ask("textDocument/moniker")["error"]["code"], -32601)
        self.assertEqual(self.editor.ask("textDocument/hover")["error"]["code"], -32602)
        self.assertEqual(self.editor.ask("textDocument/hover", textDocument={"uri": "file:///other"})["error"]["code"], -32602)
        self.editor.tell("$/unknown")
        self.editor.tell("textDocument/didOpen", textDocument=7)
        for raw in (b"nonsense", b"[1]", b"7"):
            self.editor.child.stdin.write(b"Content-Length: %d\r\n\r\n%s" % (len(raw), raw))
        self.editor.open("FTSPEC f: p;")
        self.assertEqual(len(self.editor.faults()), 1)
        self.assertEqual(self.editor.end(), 0)

    def test_many_changes_are_one(self):
        self.editor.open(TEXT)
        for k in range(50):
            change = [{"text": TEXT + f"FTSPEC z: no{k};\n"}]
            self.editor.tell("textDocument/didChange", textDocument={"uri": URI, "version": k}, contentChanges=change)
        self.editor.ask("shutdown")
        found = self.editor.faults()
        while not found or "no49" not in found[0]["message"]:
            found = self.editor.faults()
        self.assertLess(len(self.editor.told), 10)


class Ends(Case):
    def test_without_shutdown(self):
        for raw in (b"", b"Content-Length: 9999999999\r\n\r\n", b"nonsense\r\n\r\n", b"Content-Length: 5\r\n\r\n{"):
            ran = subprocess.run([sys.executable, str(TOOLS / "check"), "--server"], input=raw, capture_output=True, timeout=PATIENCE)
            self.assertEqual((ran.returncode, ran.stdout, ran.stderr), (1, b"", b""))

    def test_a_signal_while_it_waits(self):
        """It ends with the status of the signal, and says nothing."""
        for number in (signal.SIGTERM, signal.SIGINT, signal.SIGHUP):
            editor = Editor(errors=subprocess.PIPE)
            self.addCleanup(editor.close)
            self.addCleanup(editor.child.stderr.close)
            editor.ask("initialize")
            editor.child.send_signal(number)
            self.assertEqual((editor.child.wait(PATIENCE), editor.child.stderr.read()), (128 + number, b""))

    def test_a_closed_input(self):
        self.assertEqual(shell('"$TOOLS/check" --server <&-'), (1, "", ""))

    def test_a_request_before_the_first(self):
        editor = Editor()
        self.addCleanup(editor.close)
        self.assertEqual(editor.ask("shutdown")["error"]["code"], -32002)

    def test_without_c2po(self):
        editor = Editor(C2PO="/nowhere")
        self.addCleanup(editor.close)
        editor.ask("initialize")
        editor.open("FTSPEC f: true;")
        (fault,) = editor.faults()
        self.assertIn("no program /nowhere", fault["message"])


def needs(name):
    if not shutil.which(name):
        raise unittest.SkipTest(f"no {name} on the path")


class Editors(Case):
    """Each editor opens a file with a fault, shows it, and finds a definition and a kind."""

    def setUp(self):
        super().setUp()
        program("c2po")
        self.file("r2u2-check", f'#!/bin/sh\nexec {sys.executable} {TOOLS}/check "$@"\n').chmod(0o755)
        self.path = f"{self.folder}:{os.environ['PATH']}"
        self.spec = self.file("spec.c2po", "INPUT p, q: bool;\nDEFINE soon := F[0,3] q;\nFTSPEC\n  f: p -> soon;\n  g: p -> son;\n")

    def run_in(self, words, seconds=60):
        subprocess.run(words, stdin=subprocess.DEVNULL, stdout=subprocess.DEVNULL, stderr=subprocess.DEVNULL,
                       env={**os.environ, "PATH": self.path, "HOME": str(self.folder)}, timeout=seconds)
        out = self.folder / "out"
        self.assertTrue(out.exists())
        return out.read_text()

    def vim(self, lines):
        needs("vim")
        script = self.file("ask.vim", "\n".join(lines) + "\n")
        words = ["vim", "-Nu", "NONE", "-i", "NONE", "-n", "-es", "-c", f"set runtimepath^={ROOT}/editors/vim"]
        return self.run_in([*words, "-c", "filetype plugin on", "-c", f"edit {self.spec}", "-c", f"source {script}"])

    def test_vim_make(self):
        lines = ["silent make", "call writefile(map(getqflist(), 'v:val.lnum . \":\" . v:val.col . \":\" . v:val.text'), 'OUT')", "quitall!"]
        found = self.vim([line.replace("OUT", f"{self.folder}/out") for line in lines])
        self.assertEqual(found, "5:11:unknown name 'son' (did you mean 'soon'?)\n")

    def test_vim_server(self):
        if "+channel" not in shell("vim --version")[1]:
            self.skipTest("this vim has no channels")
        found = self.vim([
            "let found = []",
            "if !c2po#runs() | call writefile(['no server'], 'OUT') | quitall! | endif".replace("OUT", f"{self.folder}/out"),
            "for k in range(200)", "  if !empty(getloclist(0)) | break | endif", "  sleep 50m", "endfor",
            "call extend(found, map(getloclist(0), 'v:val.lnum . \":\" . v:val.col . \":\" . v:val.text'))",
            "call cursor(4, 13)", "call add(found, join(c2po#hover(), ' / '))",
            "call c2po#define()", "call add(found, line('.') . ':' . col('.'))",
            "call cursor(4, 13)", "call add(found, string(map(c2po#complete(0, 'so'), 'v:val.word')))",
            "call setline(1, 'INPUT p,q:bool;')", "call c2po#format()", "call add(found, getline(1))",
            f"call writefile(found, '{self.folder}/out')", "quitall!",
        ]).splitlines()
        if found == ["no server"]:
            self.skipTest("this vim has no channels for language servers")
        self.assertEqual(found[0], "5:11:unknown name 'son' (did you mean 'soon'?)")
        self.assertIn("delay 3 rows", found[1])
        self.assertEqual(found[2:], ["2:8", "['soon']", "INPUT p, q: bool;"])

    def test_emacs(self):
        needs("emacs")
        script = self.file("ask.el", f"""
(package-initialize)
(unless (require 'eglot nil t) (write-region "no eglot" nil "{self.folder}/out") (kill-emacs))
(add-to-list 'load-path "{ROOT}/editors/emacs")
(require 'c2po-mode)
(setq eglot-autoshutdown t flymake-no-changes-timeout 0.1)
(find-file "{self.spec}")
(apply #'eglot (eglot--guess-contact))
(let ((end (+ (float-time) 40)))
  (while (and (< (float-time) end) (not (flymake-diagnostics)))
    (accept-process-output nil 0.1)
    (flymake-start)))
(let (found)
  (push (symbol-name major-mode) found)
  (push (mapconcat (lambda (it) (format "%d:%s" (line-number-at-pos (flymake-diagnostic-beg it))
     (car (split-string (flymake-diagnostic-text it) "\\n")))) (flymake-diagnostics) ";") found)
  (goto-char (point-min)) (search-forward "-> soon") (backward-char 2)
  (push (eglot--dbind ((Hover) contents) (jsonrpc-request (eglot--current-server-or-lose) :textDocument/hover
     (eglot--TextDocumentPositionParams)) (plist-get contents :value)) found)
  (let ((it (car (xref-backend-definitions 'eglot (xref-backend-identifier-at-point 'eglot)))))
    (push (format "%d" (xref-location-line (xref-item-location it))) found))
  (goto-char (point-min)) (insert "INPUT  z :bool;\\n")
  (eglot-format-buffer)
  (goto-char (point-min))
  (push (buffer-substring (point) (line-end-position)) found)
  (write-region (mapconcat #'identity (nreverse found) "\\n|") nil "{self.folder}/out"))
(set-buffer-modified-p nil)
(kill-emacs)
""")
        found = self.run_in(["emacs", "-q", "--batch", "-l", str(script)], 120)
        if found == "no eglot":
            self.skipTest("this emacs has no eglot")
        mode, faults, hover, line, first = found.split("\n|")
        self.assertEqual((mode, line, first), ("c2po-mode", "2", "INPUT z: bool;"))
        self.assertRegex(faults, r"^5:.*unknown name 'son' \(did you mean 'soon'\?\)$")
        self.assertIn("delay 3 rows", hover)

    def test_the_extension_in_node(self):
        """The extension for VS Code, with an editor that only keeps what it is given."""
        needs("node")
        (self.folder / "node_modules/vscode").mkdir(parents=True)
        self.file("node_modules/vscode/index.js", NODE_EDITOR)
        shutil.copy(ROOT / "editors/vscode/extension.js", self.folder)
        script = self.file("ask.js", NODE_ASKS.replace("SPEC", str(self.spec)))
        ran = subprocess.run(["node", str(script)], capture_output=True, encoding="utf-8", timeout=PATIENCE, env={**os.environ, "PATH": self.path})
        self.assertEqual(ran.stderr, "")
        found = json.loads(ran.stdout)
        self.assertEqual(found["faults"][0][0], [4, 10, 4, 13])
        self.assertTrue(found["faults"][0][1].startswith("unknown name 'son'"))
        self.assertIn("delay 3 rows", found["hover"])
        self.assertEqual((found["definition"], found["format"]), ([1, 7, 1, 11], "INPUT p, q: bool;"))
        self.assertIn(["soon", "Variable"], found["completion"])

    def test_the_package(self):
        path = self.folder / "c2po.vsix"
        for _ in range(2):
            ran = subprocess.run([sys.executable, str(DEV / "vscode"), str(path)], capture_output=True, encoding="utf-8")
            self.assertEqual((ran.returncode, ran.stdout, ran.stderr), (0, f"{path}\n", ""))
        with zipfile.ZipFile(path) as archive:
            self.assertIsNone(archive.testzip())
            package = json.loads(archive.read("extension/package.json"))
            self.assertEqual(package["version"], (ROOT / "VERSION").read_text().strip())
            names = set(archive.namelist())
            for name in ("[Content_Types].xml", "extension.vsixmanifest", f"extension/{package['main'][2:]}"):
                self.assertIn(name, names)
            for text in ("[Content_Types].xml", "extension.vsixmanifest"):
                __import__("xml.etree.ElementTree").etree.ElementTree.fromstring(archive.read(text))


NODE_EDITOR = r"""
const kept = {};
class Range { constructor(...it) { this.it = it; } }
class Diagnostic { constructor(range, message, severity) { Object.assign(this, { range, message, severity }); } }
const event = (name) => (call) => { kept[name] = call; return { dispose() {} }; };
const plain = (name) => class { constructor(...it) { this.kind = name; this.it = it; } };
module.exports = {
  kept, Range, Diagnostic, DiagnosticSeverity: { Error: 0, Warning: 1 }, CompletionItemKind: { Variable: "Variable", Keyword: "Keyword" },
  Hover: plain("hover"), MarkdownString: plain("markdown"), Location: plain("location"), TextEdit: plain("edit"), SnippetString: plain("snippet"),
  CompletionItem: class { constructor(label, kind) { Object.assign(this, { label, kind }); } },
  Uri: { parse: (text) => text },
  window: { showWarningMessage: (text) => { throw new Error(text); } },
  languages: {
    createDiagnosticCollection: () => ({ set: (uri, list) => { kept.faults = list; if (kept.heard) kept.heard(); } }),
    registerHoverProvider: (_, it) => { kept.hover = it; return it; }, registerDefinitionProvider: (_, it) => { kept.definition = it; return it; },
    registerCompletionItemProvider: (_, it) => { kept.completion = it; return it; },
    registerDocumentFormattingEditProvider: (_, it) => { kept.format = it; return it; },
  },
  workspace: {
    textDocuments: [], getConfiguration: () => ({ get: () => ["r2u2-check", "--server"] }),
    onDidOpenTextDocument: event("open"), onDidCloseTextDocument: event("close"), onDidChangeTextDocument: event("change"),
  },
};
"""
NODE_ASKS = r"""
const vscode = require("vscode"), fs = require("fs"), extension = require("./extension.js");
(async () => {
  const it = { languageId: "c2po", uri: "file://SPEC", version: 1, getText: () => fs.readFileSync("SPEC", "utf8") };
  vscode.workspace.textDocuments.push(it);
  const heard = new Promise((done) => { vscode.kept.heard = done; });
  await extension.activate({ subscriptions: [] });
  await heard;
  const at = { line: 3, character: 11 };
  const hover = await vscode.kept.hover.provideHover(it, at), definition = await vscode.kept.definition.provideDefinition(it, at);
  const completion = await vscode.kept.completion.provideCompletionItems(it, at);
  vscode.kept.change({ document: { ...it, version: 2, getText: () => "INPUT p,q:bool;\n" } });
  const format = await vscode.kept.format.provideDocumentFormattingEdits(it);
  await extension.deactivate();
  console.log(JSON.stringify({
    faults: vscode.kept.faults.map((one) => [one.range.it, one.message]), hover: hover.it[0].it[0], definition: definition[0].it[1].it,
    completion: completion.map((one) => [one.label, one.kind]), format: format[0].it[1].trim(),
  }));
})();
"""
