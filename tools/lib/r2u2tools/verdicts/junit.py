"""The counts of verdicts as continuous integration reads them: as JUnit's XML, as TAP, or as annotations of GitHub."""

from __future__ import annotations

import os
from typing import Iterator, Optional
from xml.etree import ElementTree
from xml.etree.ElementTree import Element

from r2u2tools.common.cli import plain
from r2u2tools.verdicts.counts import NO_VERDICT, UNTRIED, Output, Result, Rules
from r2u2tools.verdicts.table import failure_text

NO_SPEC = "r2u2"


def element(tag: str, parts: list[Element], **attributes: str) -> Element:
    made = Element(tag, {name: plain(value) for name, value in attributes.items()})
    made.extend(parts)
    return made


def details(output: Output) -> Iterator[str]:
    """Yields what a person reads of a test that failed: the requirement, its counts and its events."""
    if output.requirement:
        yield output.requirement
    yield ", ".join(f"{word} {count}" for word, count in output.words.items()) or NO_VERDICT
    if output.longest is not None and output.last is not None:
        yield f"{output.stretches} stretch{'es' * (output.stretches != 1)} of F or invalid"
        yield f"longest: {output.longest.times()} from {output.longest.first} on"
        yield f"last: {output.last}"
    if output.undecided:
        yield f"undecided: {output.undecided}"


def outcome(output: Output, rules: Rules) -> list[Element]:
    """Returns what makes the test of an output fail or be skipped; nothing where it passes."""
    fault = rules.finding(output)
    if not fault:
        return [element("skipped", [], message=UNTRIED)] if output.never_tried() else []
    message = f"{output.name}: {fault}"
    if output.name in rules.ignored:
        return [element("skipped", [], message=f"ignored: {message}")]
    failure = element("failure", [], message=message, type=output.first["word"] if output.first else "undecided")
    failure.text = plain("\n".join(details(output)))
    return [failure]


def class_of(result: Result) -> str:
    """Returns the class of all tests of a log: the specification's name without its folder and ending."""
    return os.path.splitext(os.path.basename(result.spec))[0] if result.spec else NO_SPEC


def tests_of(result: Result, rules: Rules) -> Iterator[Element]:
    """Yields a test for each output, and one for the run itself where it failed or printed nothing."""
    place = {"classname": class_of(result), **({"file": result.spec} if result.spec else {})}
    for output in result.outputs.values():
        line = {"line": str(output.line)} if output.line else {}
        yield element("testcase", outcome(output, rules), name=output.name, time="0.000", **place, **line)
    for fault in result.failed:
        error = element("error", [], message=failure_text(fault), type=str(fault["code"] or "unreadable"))
        error.text = plain(failure_text(fault))
        name = f"run of {fault['log']}" if fault.get("log") else "run"
        yield element("testcase", [error], name=name, time=f"{result.seconds:.3f}", **place)
    if not result.failed and (not result.outputs or result.empty):
        failure = element("failure", [], message=NO_VERDICT, type="nothing")
        failure.text = "The run printed no verdict line."
        yield element("testcase", [failure], name="run", time=f"{result.seconds:.3f}", **place)


def counts(tests: list[Element], seconds: float) -> dict[str, str]:
    """Returns the attributes of a suite: how many of its tests failed, had errors, were skipped, and its time."""
    found = {"tests": len(tests)}
    for name, tag in (("failures", "failure"), ("errors", "error"), ("skipped", "skipped")):
        found[name] = sum(test.find(tag) is not None for test in tests)
    return {**{name: str(count) for name, count in found.items()}, "time": f"{seconds:.3f}"}


def as_junit(result: Result, rules: Rules) -> str:
    """Returns one document with a suite for each log."""
    suites, every = [], []
    for log in result.suites or [result]:
        tests = list(tests_of(log, rules))
        every += tests
        suites.append(element("testsuite", tests, name=log.log or NO_SPEC, **counts(tests, log.seconds)))
    total = sum(log.seconds for log in result.suites or [result])
    root = element("testsuites", suites, name=NO_SPEC, **counts(every, total))
    ElementTree.indent(root)
    return '<?xml version="1.0" encoding="UTF-8"?>\n' + ElementTree.tostring(root, encoding="unicode")


def results(result: Result, rules: Rules) -> Iterator[tuple[Element, Optional[Element]]]:
    """Yields all tests, each with what makes it fail or be skipped."""
    for log in result.suites or [result]:
        for test in tests_of(log, rules):
            yield test, test[0] if len(test) else None


def as_tap(result: Result, rules: Rules) -> str:
    """Returns a line for each test, as the Test Anything Protocol has it."""
    lines = []
    for number, (test, why) in enumerate(results(result, rules), 1):
        failed = why is not None and why.tag != "skipped"
        text = f"{'not ' * failed}ok {number} - {test.get('name')}"
        lines.append(text if why is None else f"{text} # {'' if failed else 'SKIP '}{why.get('message')}")
    return "\n".join(["TAP version 13", f"1..{len(lines)}", *lines])


def as_github(result: Result, rules: Rules) -> str:
    """Returns an annotation for each test that fails, at the line of its requirement."""
    lines = []
    for test, why in results(result, rules):
        if why is not None and why.tag != "skipped":
            place = {"file": test.get("file"), "line": test.get("line"), "title": test.get("name")}
            given = ",".join(f"{name}={escaped(value, ':,')}" for name, value in place.items() if value)
            lines.append(f"::error {given}::{escaped(why.get('message') or '')}")
    return "\n".join(lines)


def escaped(text: str, more: str = "") -> str:
    """Returns a text as a command of GitHub's runner holds it."""
    return "".join(f"%{ord(letter):02X}" if letter in "%\r\n" + more else letter for letter in text)
