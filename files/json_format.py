"""All that is known as one JSON text."""
import json
from collections.abc import Sequence

from files import VERSION
from files.results import FOUND, OPEN, PROVED, Assertion, Checked, Step, worst

WORDS = {PROVED: "proved", FOUND: "can fail", OPEN: "not settled"}


def step_value(it: Step) -> dict[str, object]:
    """A step of a run."""
    value: dict[str, object] = {"line": it.place[0], "column": it.place[1], "text": it.text}
    return value | ({"input": it.input} if it.input else {})


def assertion_value(it: Assertion) -> dict[str, object]:
    """An assertion."""
    value: dict[str, object] = {
        "number": it.number, "line": it.place[0], "column": it.place[1], "procedure": it.procedure, "assertion": it.text,
        "state": WORDS[it.state],
    }
    if it.state == FOUND:
        value |= {"inputs": list(it.inputs), "run": [step_value(step) for step in it.steps]}
        value |= {"no_run": it.trace_fault} if it.trace_fault else {}
    if it.state == OPEN:
        value["reasons"] = list(dict.fromkeys(it.reasons.values()))
    else:
        value["by"] = it.stage
    if it.is_unreached:
        value["reached"] = False
    if it.is_known:
        value["known"] = True
    if it.proof:
        value["proof"] = it.proof
    return value


def file_value(it: Checked) -> dict[str, object]:
    """A file."""
    value: dict[str, object] = {"file": it.name, "status": it.status()}
    if it.fault:
        value["fault"] = it.fault
    if it.refusal is not None:
        line, column = it.refusal.place or (None, None)
        value["refused"] = {"line": line, "column": column, "text": it.refusal.text, "hints": [
            {"line": hint.place[0], "column": hint.place[1], "construct": hint.construct, "write": hint.remedy}
            for hint in it.hints]}
    if it.warnings:
        value["warnings"] = it.warnings
    return value | {"assertions": [assertion_value(assertion) for assertion in it.assertions]}


def json_text(files: Sequence[Checked]) -> str:
    """The whole text."""
    whole = {"tool": "smash-files", "version": VERSION, "status": worst(list(files)), "files": [file_value(it) for it in files]}
    return json.dumps(whole, indent=1) + "\n"
