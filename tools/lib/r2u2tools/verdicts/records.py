"""The counts of verdicts as JSON, and back: what --json prints and --merge reads."""

from __future__ import annotations

import json
from typing import Any, Optional

from r2u2tools.common.cli import ToolError
from r2u2tools.common.verdict_lines import WORDS
from r2u2tools.verdicts.counts import Event, Output, Result, Rules

LAYOUT = 2
FOREIGN = "not what verdicts --json prints"


def event_record(event: Optional[Event]) -> Optional[dict[str, Any]]:
    return None if event is None else {"from": event.first, "to": event.last, "log": event.log}


def output_record(output: Output) -> dict[str, Any]:
    """Returns one output as an object of JSON."""
    kept: dict[str, Any] = {"name": output.name, "logs": output.logs, "decided": output.decided}
    kept["undecided"] = output.undecided
    kept["words"] = {word: output.words[word] for word in WORDS if word in output.words}
    kept |= {"bad_logs": output.bad_logs, "first": output.first, "stretches": output.stretches}
    kept |= {"longest": event_record(output.longest), "last": event_record(output.last)}
    if output.requirement:
        kept["requirement"] = output.requirement
    if output.line:
        kept["line"] = output.line
    return kept | ({"exercised": output.left} if output.left is not None else {})


def as_json(result: Result, rules: Rules) -> str:
    """Returns the result as one object, with a line for each output."""
    kept: dict[str, Any] = {"verdicts": LAYOUT, "log": result.log, "logs": result.logs, "lines": result.lines}
    kept |= {"spec": result.spec, "seconds": round(result.seconds, 3), "status": result.status(rules)}
    kept |= {"ignored": sorted(rules.ignored), "failed": result.failed, "empty": result.empty}
    outputs = [json.dumps(output_record(output)) for output in result.outputs.values()]
    text = json.dumps(kept)[:-1] + ', "outputs": ['
    return text + ("\n  " + ",\n  ".join(outputs) + "\n" if outputs else "") + "]}"


def fit(value: Any, *kinds: type) -> Any:
    """Returns a value of one of these types; a number is neither a Boolean nor below 0."""
    if type(value) not in kinds or (type(value) in (int, float) and not 0 <= value < 1 << 63):
        raise ValueError
    return value


def number(record: Any, key: str) -> int:
    found: int = fit(fit(record, dict)[key], int)
    return found


def text(record: Any, key: str) -> Optional[str]:
    found: Optional[str] = fit(fit(record, dict).get(key), str, type(None))
    return found


def event_of(record: Any) -> Optional[Event]:
    return None if record is None else Event(number(record, "from"), number(record, "to"), text(record, "log"))


def first_of(record: Any) -> Optional[dict[str, Any]]:
    if record is None:
        return None
    return {"time": number(record, "time"), "word": fit(record["word"], str), "log": text(record, "log")}


def output_of(record: Any) -> Output:
    """Returns the output that an object describes."""
    output = Output(fit(fit(record, dict)["name"], str), number(record, "logs"))
    output.words = {word: number(record["words"], word) for word in fit(record["words"], dict)}
    if not set(output.words) <= set(WORDS):
        raise ValueError
    output.decided, output.undecided = number(record, "decided"), number(record, "undecided")
    output.bad_logs, output.stretches = number(record, "bad_logs"), number(record, "stretches")
    output.first = first_of(record["first"])
    output.longest, output.last = event_of(record["longest"]), event_of(record["last"])
    output.requirement, output.line = text(record, "requirement") or "", number(record, "line") if "line" in record else 0
    left = record.get("exercised")
    output.left = None if left is None else {key: number(left, key) for key in ("true", "of")}
    return output


def failure_of(record: Any) -> dict[str, Any]:
    code = fit(fit(record, dict)["code"], int, type(None))
    return {"log": text(record, "log"), "code": code, "message": fit(record["message"], str)}


def from_json(record: Any) -> Result:
    """Returns the result that as_json wrote; other values are refused."""
    if not isinstance(record, dict) or record.get("verdicts") != LAYOUT:
        raise ToolError(FOREIGN)
    try:
        result = Result(text(record, "log"), logs=number(record, "logs"), spec=text(record, "spec"))
        result.lines, result.seconds = number(record, "lines"), float(fit(record["seconds"], int, float))
        result.failed = [failure_of(it) for it in fit(record["failed"], list)]
        result.empty = [fit(it, str) for it in fit(record["empty"], list)]
        for kept in fit(record["outputs"], list):
            output = output_of(kept)
            result.outputs[output.name] = output
    except (KeyError, TypeError, ValueError, AttributeError, OverflowError):
        raise ToolError(FOREIGN) from None
    return result
