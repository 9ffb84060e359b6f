"""Faults as a compiler prints them, as JSON, and as SARIF for reviews of code."""

import json
from pathlib import Path
from typing import Any, Dict, Iterator, List, Tuple

from r2u2tools.check.faults import Fault, Report

SCHEMA = "https://json.schemastore.org/sarif-2.1.0.json"
PAGE = "docs/reference/messages.md"
WIDEST = 160
Checked = List[Tuple[str, Report]]


def shown(text: str) -> str:
    """A line without control characters, which a terminal would obey."""
    return "".join(letter if letter.isprintable() else " " if letter == "\t" else "\N{REPLACEMENT CHARACTER}" for letter in text)


def caret(report: Report, fault: Fault) -> Iterator[str]:
    """The line at fault, cut to what fits, and a mark below the token."""
    line = shown(report.source.lines()[fault.line - 1].rstrip("\r"))
    start = max(0, fault.column - WIDEST // 2) if len(line) > WIDEST else 0
    yield f"  {line[start : start + WIDEST]}"
    yield f"  {' ' * (fault.column - start)}{'^' * max(1, min(fault.length, WIDEST // 2))}"


def as_text(name: str, report: Report) -> Iterator[str]:
    """The faults of one file; the last line is c2po's own."""
    for fault in report.faults:
        yield f"{name}:{fault.line}:{fault.column + 1}: {fault.level}: {shown(fault.text())}"
        yield from caret(report, fault)
        if fault.note:
            yield f"  note: {fault.note.text()}"
    if report.more:
        yield f"{name}: there are more faults"
    if report.answer.status:
        yield f"{name}: {report.program}: {report.answer.message}"


def as_object(fault: Fault) -> Dict[str, Any]:
    return {
        "line": fault.line, "column": fault.column + 1, "length": fault.length, "what": fault.what,
        "level": fault.level, "message": fault.text(), "hints": fault.hints, "note": fault.note.text() if fault.note else None,
    }


def as_json(checked: Checked) -> str:
    """All files: what c2po says of each, and its faults."""
    files = [
        {
            "file": name, "status": report.answer.status, report.program: report.answer.message, "more": report.more,
            "faults": [as_object(fault) for fault in report.faults],
        }
        for name, report in checked
    ]
    return json.dumps({"files": files}, indent=2)


def result(name: str, fault: Fault) -> Dict[str, Any]:
    """One fault as SARIF has it; columns count from 1, and the last one is that after the token."""
    region = {
        "startLine": fault.line, "startColumn": fault.column + 1, "endColumn": fault.column + 1 + max(1, fault.length),
    }
    note = f"\n{fault.note.text()}" if fault.note else ""
    return {
        "ruleId": fault.what, "level": fault.level, "message": {"text": shown(fault.text()) + note},
        "locations": [{"physicalLocation": {"artifactLocation": {"uri": uri(name)}, "region": region}}],
    }


def uri(name: str) -> str:
    """The path of a file, as SARIF asks for it: relative ones stay so."""
    path = Path(name)
    return path.as_uri() if path.is_absolute() else str(path.as_posix()).replace(" ", "%20")


def as_sarif(checked: Checked) -> str:
    results = [result(name, fault) for name, report in checked for fault in report.faults]
    rules = [
        {"id": it, "shortDescription": {"text": it}, "help": {"text": f"{PAGE} has causes and what to write instead."}}
        for it in sorted({found["ruleId"] for found in results})
    ]
    driver = {"name": "r2u2-check", "rules": rules}
    runs = [{"tool": {"driver": driver}, "columnKind": "unicodeCodePoints", "results": results}]
    return json.dumps({"$schema": SCHEMA, "version": "2.1.0", "runs": runs}, indent=2)
