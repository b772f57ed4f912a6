"""All that is known as SARIF 2.1.0 (OASIS), for forges that show it beside the lines."""
import hashlib
import json
import os
import urllib.parse
from collections.abc import Sequence

from files import VERSION
from files.reports import Place
from files.results import FOUND, OPEN, PROVED, Assertion, Checked, worst
from files.text_format import failing

SCHEMA = "https://json.schemastore.org/sarif-2.1.0.json"
RULES = {
    "can-fail": ("error", "An assertion can fail: a run on the inputs that are given fails there."),
    "not-settled": ("warning", "An assertion is neither proved nor seen to fail."),
    "not-reached": ("warning", "An assertion is proved, and so is that no run gets to it."),
    "refused": ("error", "A file isn't in the language, so nothing in it was checked."),
    "unreadable": ("error", "A file can't be read."),
    "stopped": ("warning", "A file's assertions couldn't be told."),
    "proof-not-kept": ("warning", "A proof couldn't be kept."),
    "proved": ("none", "An assertion is proved: no run fails there."),
}
Value = dict[str, object]


def uri_of(name: str) -> str:
    """A file's name as a reference: relative where the name is."""
    path = urllib.parse.quote(os.fsencode(name).replace(os.fsencode(os.sep), b"/"), safe="/~")
    return f"file://{path}" if os.path.isabs(name) else path


def location(checked: Checked, place: Place | None, message: str = "") -> Value:
    """A place of a file. Its column counts characters, as the standard has it, and no bytes."""
    physical: Value = {"artifactLocation": {"uri": uri_of(checked.name)}}
    if place:
        lines = (checked.text or b"").split(b"\n", place[0])
        before = lines[place[0] - 1][: place[1] - 1] if place[0] <= len(lines) else b""
        physical["region"] = {"startLine": place[0], "startColumn": len(before.decode("utf-8", "replace")) + 1}
    return {"physicalLocation": physical} | ({"message": {"text": message}} if message else {})


def result(rule: str, text: str, checked: Checked, place: Place | None) -> Value:
    """A result of a rule."""
    level = RULES[rule][0]
    return {
        "ruleId": rule, "ruleIndex": list(RULES).index(rule), "kind": "pass" if level == "none" else "fail", "level": level,
        "message": {"text": text}, "locations": [location(checked, place)],
    }


def assertion_result(checked: Checked, it: Assertion, has_baseline: bool) -> Value:
    """The result of an assertion."""
    if it.state == FOUND:
        value = result("can-fail", failing(it.inputs), checked, it.place)
    elif it.state == OPEN:
        value = result("not-settled", f"not settled: {it.reason}", checked, it.place)
    elif it.is_unreached:
        value = result("not-reached", "proved, but no run gets here", checked, it.place)
    else:
        value = result("proved", f"proved by {it.stage}", checked, it.place)
    if it.steps:
        steps = [{"location": location(checked, step.place, step.text)} for step in it.steps]
        value["codeFlows"] = [{"threadFlows": [{"locations": steps}]}]
    print_of = hashlib.sha256(f"{it.procedure}\n{it.text}".encode("utf-8", "surrogateescape")).hexdigest()
    value["partialFingerprints"] = {"procedureAndAssertion/v1": print_of}
    if has_baseline and it.state != PROVED:
        value["baselineState"] = "unchanged" if it.is_known else "new"
    return value


def file_results(it: Checked, is_verbose: bool, has_baseline: bool) -> list[Value]:
    """The results of a file."""
    if it.text is None:
        return [result("unreadable", f"can't be read: {it.fault}", it, None)]
    if it.refusal is not None:
        hints = "".join(f"; in place of {hint.construct}: {hint.remedy}" for hint in it.hints)
        return [result("refused", f"not in the language: {it.refusal.text}{hints}", it, it.refusal.place)]
    told = [one for one in it.assertions if is_verbose or one.state != PROVED or one.is_unreached]
    results = [assertion_result(it, one, has_baseline) for one in told]
    results += [result("proof-not-kept", warning, it, None) for warning in it.warnings]
    return results + ([result("stopped", f"not settled: {it.fault}", it, None)] if it.fault else [])


def sarif_text(files: Sequence[Checked], is_verbose: bool, has_baseline: bool) -> str:
    """The whole text."""
    rules = [
        {"id": name, "shortDescription": {"text": text}, "defaultConfiguration": {"level": level}}
        for name, (level, text) in RULES.items()
    ]
    run: Value = {
        "tool": {"driver": {"name": "smash-files", "version": VERSION, "rules": rules}},
        "columnKind": "unicodeCodePoints",
        "invocations": [{"executionSuccessful": not any(it.text is None or it.fault for it in files), "exitCode": worst(list(files))}],
        "artifacts": [{"location": {"uri": uri_of(it.name)}} for it in files],
        "results": [one for it in files for one in file_results(it, is_verbose, has_baseline)],
    }
    return json.dumps({"$schema": SCHEMA, "version": "2.1.0", "runs": [run]}, indent=1) + "\n"
