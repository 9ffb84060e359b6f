"""A language server by its protocol: messages of JSON over two streams, and the requests that an editor makes.

A text is checked in a process by itself, which a newer text ends, so that requests are served meanwhile. Lines and columns of the protocol count from 0, and columns count units of UTF-16.
"""

import json
import multiprocessing
import os
import queue
import subprocess
import threading
from multiprocessing.connection import Connection
from typing import Any, BinaryIO, Callable, Dict, List, Optional, Set, Union

from r2u2tools.check.faults import MEANT, Fault, Report, check
from r2u2tools.check.language import Document
from r2u2tools.check.layout import laid_out
from r2u2tools.common.source import LARGEST, NAME, RESERVED, Token, encoded, read
from r2u2tools.common.cli import ToolError

LONGEST = 1 << 24
UNKNOWN, WRONG, FAILED, NOT_YET = -32601, -32602, -32603, -32002
# After how many seconds a changed text is checked, a check is told as a progress, and a request goes on without it.
QUIET, SLOW, PATIENT = 0.05, 1.0, 10.0
FORK = multiprocessing.get_context("fork")
Message = Dict[str, Any]

ABILITIES = {
    "textDocumentSync": {"openClose": True, "change": 1},
    "hoverProvider": True,
    "definitionProvider": True,
    "completionProvider": {"triggerCharacters": ["."]},
    "documentFormattingProvider": True,
    "documentSymbolProvider": True,
    "referencesProvider": True,
    "renameProvider": True,
    "codeActionProvider": {"codeActionKinds": ["quickfix"]},
}


class Wrong(Exception):
    """A request that can't be served: the number that the protocol gives to why, and a text."""

    def __init__(self, code: int, text: str):
        super().__init__(text)
        self.code = code


def units(text: str) -> int:
    """How many units of UTF-16 a text has."""
    return len(text.encode("utf-16-le", "surrogatepass")) // 2


def place_of(text: str, position: Message) -> int:
    """The place in a text of a line and a column of the protocol; past a line's end it is that end."""
    line, column = int(position["line"]), int(position["character"])
    start = 0
    for _ in range(line):
        start = text.find("\n", start) + 1
        if not start:
            return len(text)
    end = text.find("\n", start)
    row = text[start : end if end >= 0 else len(text)]
    count = 0
    for place, letter in enumerate(row):
        if count >= column:
            return start + place
        count += units(letter)
    return start + len(row)


def position(lines: List[str], line: int, column: int) -> Message:
    """A place of the protocol; `line` counts from 1, `column` characters from 0."""
    return {"line": line - 1, "character": units(lines[line - 1][:column])}


def span(lines: List[str], line: int, column: int, length: int) -> Message:
    return {"start": position(lines, line, column), "end": position(lines, line, column + max(1, length))}


def range_of(lines: List[str], token: Token) -> Message:
    return span(lines, token.line, token.column, len(token.text))


def read_message(stream: BinaryIO) -> Optional[Message]:
    """The next message; none where the stream has ended or no longer holds messages."""
    size = None
    while line := stream.readline(1 << 12):
        if not line.strip():
            break
        name, _, value = line.partition(b":")
        if name.strip().lower() == b"content-length" and value.strip().isdigit():
            size = int(value)
    if size is None or size > LONGEST:
        return None
    raw = stream.read(size)
    if len(raw) < size:
        return None
    try:
        found = json.loads(raw)
    except (ValueError, RecursionError):
        return {}
    return found if isinstance(found, dict) else {}


class Checking:
    """A check of a text in a process by itself. It puts itself into a queue when it takes long, and when it has ended."""

    def __init__(self, uri: str, text: str, incoming: "queue.Queue[Any]"):
        self.uri, self.incoming = uri, incoming
        self.report: Optional[Report] = None
        self.fault = "the check ended without an answer"
        self.ended, self.is_told = threading.Event(), False
        reader, writer = FORK.Pipe(duplex=False)
        self.process = FORK.Process(target=checked, args=(text, writer), daemon=True)
        self.process.start()
        writer.close()
        threading.Thread(target=self.listen, args=(reader,), daemon=True).start()

    def listen(self, reader: Connection) -> None:
        try:
            if not reader.poll(SLOW):
                self.incoming.put(self)
            self.report, self.fault = reader.recv()
        except (EOFError, OSError):
            pass
        self.ended.set()
        self.incoming.put(self)


def checked(text: str, writer: Connection) -> None:
    """The work of that process."""
    try:
        writer.send((check(text), ""))
    except (ToolError, OSError, subprocess.SubprocessError) as fault:
        writer.send((None, str(fault)))
    except BaseException:
        os._exit(1)


class Server:
    """Serves one editor until it says exit, or its stream ends."""

    def __init__(self, source: BinaryIO, target: BinaryIO):
        self.source, self.target = source, target
        self.texts: Dict[str, str] = {}
        self.documents: Dict[str, Document] = {}
        self.changed: Set[str] = set()
        self.running: Dict[str, Checking] = {}
        self.began = self.ended = self.shows_progress = False
        self.incoming: "queue.Queue[Union[Message, Checking, None]]" = queue.Queue()
        self.requests: Dict[str, Callable[[Message], Any]] = {
            "shutdown": self.shutdown,
            "textDocument/hover": self.hover,
            "textDocument/definition": self.definition,
            "textDocument/completion": self.completion,
            "textDocument/formatting": self.formatting,
            "textDocument/documentSymbol": self.symbols,
            "textDocument/references": self.references,
            "textDocument/rename": self.rename,
            "textDocument/codeAction": self.actions,
        }

    def run(self) -> int:
        """Serves to the end; the exit code of the protocol is 0 where the editor said shutdown before."""
        threading.Thread(target=self.listen, daemon=True).start()
        while True:
            try:
                message = self.incoming.get(timeout=QUIET if self.changed else None)
            except queue.Empty:
                self.start()
                continue
            if isinstance(message, Checking):
                self.answered(message)
                continue
            if message is None or message.get("method") == "exit":
                return 0 if self.ended else 1
            self.take(message)

    def listen(self) -> None:
        """Puts messages aside as they come, so that a later text takes the place of an earlier one."""
        while True:
            try:
                message = read_message(self.source)
            except (OSError, ValueError):
                message = None
            self.incoming.put(message)
            if message is None or message.get("method") == "exit":
                return

    def send(self, message: Message) -> None:
        raw = json.dumps({"jsonrpc": "2.0", **message}).encode("ascii")
        self.target.write(b"Content-Length: %d\r\n\r\n%s" % (len(raw), raw))
        self.target.flush()

    def take(self, message: Message) -> None:
        """Serves one message; a request always has one response."""
        method, given = message.get("method"), message.get("params") or {}
        if "id" not in message:
            self.notified(str(method), given)
        elif method is not None:
            try:
                self.send({"id": message["id"], "result": self.result(str(method), given)})
            except Wrong as fault:
                self.refuse(message, fault.code, str(fault))
            except (KeyError, TypeError, ValueError, IndexError) as fault:
                self.refuse(message, WRONG, f"the request lacks something: {fault}")
            except (ToolError, OSError, subprocess.SubprocessError) as fault:
                self.refuse(message, FAILED, str(fault))

    def refuse(self, message: Message, code: int, text: str) -> None:
        self.send({"id": message["id"], "error": {"code": code, "message": text}})

    def result(self, method: str, given: Message) -> Any:
        if method == "initialize":
            self.began = True
            self.shows_progress = bool(((given.get("capabilities") or {}).get("window") or {}).get("workDoneProgress"))
            return {"capabilities": ABILITIES, "serverInfo": {"name": "r2u2-check"}}
        if not self.began:
            raise Wrong(NOT_YET, "initialize comes first")
        if method not in self.requests:
            raise Wrong(UNKNOWN, f"no request {method}")
        return self.requests[method](given)

    def notified(self, method: str, given: Message) -> None:
        """Takes what the editor says of its texts; what lacks something is passed over."""
        try:
            if method == "textDocument/didOpen":
                self.set(given["textDocument"]["uri"], given["textDocument"]["text"])
            elif method == "textDocument/didChange" and given["contentChanges"]:
                self.set(given["textDocument"]["uri"], given["contentChanges"][-1]["text"])
            elif method == "textDocument/didClose":
                self.close(given["textDocument"]["uri"])
        except (KeyError, TypeError, IndexError):
            return

    def set(self, uri: str, text: str) -> None:
        self.forget(uri)
        self.texts[uri] = str(text)
        self.changed.add(uri)

    def close(self, uri: str) -> None:
        self.forget(uri)
        self.send_faults(uri, [])

    def forget(self, uri: str) -> None:
        """Ends what is done for a text that is no longer there."""
        self.texts.pop(uri, None)
        self.documents.pop(uri, None)
        self.changed.discard(uri)
        if uri in self.running:
            self.running.pop(uri).process.terminate()

    def start(self) -> None:
        """Begins to check all texts that changed."""
        for uri in sorted(self.changed):
            if len(encoded(self.texts[uri])) > LARGEST:
                self.send_faults(uri, [remark(f"longer than {LARGEST} bytes: c2po takes no such text")])
            else:
                self.running[uri] = Checking(uri, self.texts[uri], self.incoming)
        self.changed.clear()

    def answered(self, it: Checking) -> None:
        """Sends the faults of a text that was checked; of a check that takes long, that it goes on."""
        if it.ended.is_set():
            self.progress(it, "end")
        if self.running.get(it.uri) is not it:
            return
        if not it.ended.is_set():
            self.progress(it, "begin")
            return
        del self.running[it.uri]
        if it.report is None:
            self.send_faults(it.uri, [remark(it.fault)])
            return
        self.documents[it.uri] = Document(it.report.source, it.report)
        lines = it.report.source.lines()
        self.send_faults(it.uri, [diagnostic(lines, fault) for fault in it.report.faults])

    def progress(self, it: Checking, kind: str) -> None:
        if not self.shows_progress or it.is_told == (kind == "begin"):
            return
        token, it.is_told = f"check-{id(it)}", kind == "begin"
        if it.is_told:
            self.send({"id": token, "method": "window/workDoneProgress/create", "params": {"token": token}})
        value = {"kind": kind} | ({"title": "r2u2-check", "message": it.uri.rpartition("/")[2]} if it.is_told else {})
        self.send({"method": "$/progress", "params": {"token": token, "value": value}})

    def send_faults(self, uri: str, found: List[Message]) -> None:
        self.send({"method": "textDocument/publishDiagnostics", "params": {"uri": uri, "diagnostics": found}})

    def document(self, uri: str) -> Document:
        if uri not in self.texts:
            raise Wrong(WRONG, f"no text {uri} is open")
        if len(self.texts[uri]) > LARGEST:
            raise Wrong(FAILED, f"longer than {LARGEST} bytes")
        if uri not in self.documents:
            self.documents[uri] = Document(read(self.texts[uri]))
        return self.documents[uri]

    def settled(self, given: Message) -> Document:
        """The text of a request with what was found in it, where that doesn't take too long."""
        uri = given["textDocument"]["uri"]
        self.start()
        if (it := self.running.get(uri)) and it.ended.wait(PATIENT):
            self.answered(it)
        return self.document(uri)

    def asked(self, given: Message) -> Document:
        return self.document(given["textDocument"]["uri"])

    def shutdown(self, _: Message) -> None:
        self.ended = True

    def hover(self, given: Message) -> Optional[Message]:
        document = self.settled(given)
        found = document.hover(place_of(document.source.text, given["position"]))
        if found is None:
            return None
        token, text = found
        return {"contents": {"kind": "markdown", "value": text}, "range": range_of(document.source.lines(), token)}

    def definition(self, given: Message) -> List[Message]:
        document, uri = self.asked(given), given["textDocument"]["uri"]
        lines = document.source.lines()
        found = document.definitions(place_of(document.source.text, given["position"]))
        return [{"uri": uri, "range": range_of(lines, token)} for token in found]

    def completion(self, given: Message) -> Message:
        document = self.asked(given)
        found = document.completion(place_of(document.source.text, given["position"]))
        return {"isIncomplete": False, "items": list({it["label"]: it for it in found}.values())}

    def formatting(self, given: Message) -> List[Message]:
        text = self.asked(given).source.text
        new = laid_out(text)
        lines = text.split("\n")
        end = position(lines, len(lines), len(lines[-1]))
        return [] if new == text else [{"range": {"start": {"line": 0, "character": 0}, "end": end}, "newText": new}]

    def references(self, given: Message) -> List[Message]:
        document, uri = self.asked(given), given["textDocument"]["uri"]
        place, lines = place_of(document.source.text, given["position"]), document.source.lines()
        found = document.references(place)
        if not (given.get("context") or {}).get("includeDeclaration", True):
            found = [it for it in found if it not in document.definitions(place)]
        return [{"uri": uri, "range": range_of(lines, token)} for token in found]

    def rename(self, given: Message) -> Optional[Message]:
        document, name = self.asked(given), str(given["newName"])
        if not NAME.fullmatch(name) or name in RESERVED:
            raise Wrong(WRONG, f"{name} can't be a name")
        if any(token.text == name for token in document.source.tokens):
            raise Wrong(WRONG, f"{name} is a name already")
        found = self.references({**given, "context": {}})
        return {"changes": {it["uri"]: [edit(its["range"], name) for its in found] for it in found[:1]}} if found else None

    def actions(self, given: Message) -> List[Message]:
        """The names that were meant, as edits."""
        document, uri = self.settled(given), given["textDocument"]["uri"]
        lines, wanted = document.source.lines(), given["range"]
        found = []
        for fault in document.report.faults if document.report else ():
            problem = diagnostic(lines, fault)
            first, last = (tuple(problem["range"][end].values()) for end in ("start", "end"))
            if first <= tuple(wanted["end"].values()) and tuple(wanted["start"].values()) <= last:
                found += [self.action(uri, problem, f"Write {name}", problem["range"], name) for name in MEANT.findall(fault.text())]
                line = lines[fault.line - 1]
                if not found and fault.note and fault.note.wrong and fault.note.wrong == line:
                    found.append(self.action(uri, problem, f"Write {fault.note.right}", span(lines, fault.line, 0, len(line)), fault.note.right))
        return found

    def action(self, uri: str, problem: Message, title: str, place: Message, text: str) -> Message:
        return {"title": title, "kind": "quickfix", "diagnostics": [problem], "edit": {"changes": {uri: [edit(place, text)]}}}

    def symbols(self, given: Message) -> List[Message]:
        """The names that a text declares, for the outline of an editor."""
        source = self.asked(given).source
        lines = source.lines()
        kinds = {"STRUCT": 23, "INPUT": 13, "DEFINE": 14}
        named = [(name.text, kinds.get(item.section, 12), range_of(lines, name)) for item in source.items for name in item.names()]
        return [{"name": name, "kind": kind, "range": place, "selectionRange": place} for name, kind, place in named]


def diagnostic(lines: List[str], fault: Fault) -> Message:
    """A fault as the protocol has it."""
    text = fault.text() + (f"\n{fault.note.text()}" if fault.note else "")
    place = span(lines, fault.line, fault.column, fault.length)
    return {"range": place, "severity": 1, "code": fault.what, "source": "c2po", "message": text}


def remark(text: str) -> Message:
    """What is said of a whole text."""
    start = {"line": 0, "character": 0}
    return {"range": {"start": start, "end": start}, "severity": 2, "source": "r2u2-check", "message": text}


def edit(place: Message, text: str) -> Message:
    return {"range": place, "newText": text}
