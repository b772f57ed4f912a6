"""Labelled programs: of each assertion it is known whether it can fail."""
import re
from collections.abc import Iterator
from dataclasses import dataclass
from pathlib import Path

from suite.cases import Case, Outcome, Setting, difference
from suite.reports import Malformed, Verdict, read_report, replay_faults, status_of
from suite.tables import read_table

TRUTHS = ("program", "place", "truth", "inputs", "seen by")
# The steps for each assertion, where tests/budgets.tsv has no other number.
BUDGET = 2000


@dataclass(frozen=True)
class Label:
    """What is true of the assertion at a place, and for some that fail, inputs on which they do."""

    place: str
    truth: str
    inputs: str | None


def read_labels(tests: Path) -> dict[str, list[Label]]:
    """The labels of each program, in source order."""
    labels: dict[str, list[Label]] = {}
    for program, place, truth, inputs, _ in read_table(tests / "truth.tsv", TRUTHS):
        if truth not in ("proved", "found") or not re.fullmatch(r"\d+:\d+", place):
            raise ValueError(f"truth.tsv: {program} {place} {truth}: no place with `proved` or `found`")
        labels.setdefault(program, []).append(Label(place, truth, None if inputs == "-" else inputs))
    return labels


def labelled_cases(tests: Path) -> Iterator[Case]:
    """Each program of tests/truth.tsv, and whether the table has all that are there."""
    labels = read_labels(tests)
    budgets = {name: int(steps) for name, steps, _ in read_table(tests / "budgets.tsv", ("program", "budget", "why"))}
    programs = tests / "programs"
    for name, owed in labels.items():
        yield labelled_case(programs / name, name, owed, budgets.get(name, BUDGET))
    there = sorted(str(path.relative_to(programs)) for path in programs.glob("*/*.c"))
    known = sorted({*labels} | {*budgets})
    yield Case("programs/table", lambda _: Outcome(difference("programs of truth.tsv and budgets.tsv", there, known)))


def labelled_case(path: Path, name: str, labels: list[Label], budget: int) -> Case:
    """What is said of one program, against its labels."""

    def judged(setting: Setting) -> Outcome:
        source = path.read_bytes()
        ended = setting.run(["check", "--workers", "1", "--budget", str(budget)], source)
        try:
            verdicts = read_report(ended.out)
        except Malformed as fault:
            return Outcome([*difference(str(fault), "a report", ended.out), *difference("status", "that of a report", ended.status)])
        outcome = Outcome(difference("standard error", b"", ended.err))
        outcome.faults += difference("status", status_of(verdicts), ended.status)
        outcome.faults += difference("places", [label.place for label in labels], [verdict.place for verdict in verdicts])
        if not outcome.faults:
            for label, verdict in zip(labels, verdicts):
                compare(outcome, setting, source, label, verdict)
        return outcome

    return Case(f"programs/{name}", judged, cost=3 if budget == BUDGET else 9)


def compare(outcome: Outcome, setting: Setting, source: bytes, label: Label, verdict: Verdict) -> None:
    """Adds to an outcome what a verdict is worth. Inputs on which the assertion is known to fail are replayed too."""
    faults = []
    if verdict.kind not in ("unknown", label.truth):
        faults += difference(f"verdict at {label.place}", label.truth, verdict.text)
    if verdict.kind == "found":
        faults += replay_faults(setting, source, label.place, verdict.inputs)
    if faults:
        outcome.wrong += 1
    elif verdict.kind != "unknown":
        outcome.settled += 1
    if label.inputs is not None:
        faults += replay_faults(setting, source, label.place, label.inputs)
    outcome.faults += faults
