"""Worked rows: a folder with the words, the input and what has to come. tests/README.md has their form."""
from collections.abc import Iterator
from dataclasses import dataclass
from pathlib import Path

from suite.cases import Case, Outcome, Setting, difference
from suite.children import Ended
from suite.reports import Malformed, Verdict, read_report, replay_faults, status_of

FILES = {"words", "input", "then", "output", "last", "verdicts", "status"}


@dataclass(frozen=True)
class Row:
    """A command with its input and what is wanted of it. One of `output`, `last` and `verdicts` is there."""

    words: list[str]
    source: bytes
    then: list[str] | None
    output: bytes | None
    last: bytes | None
    verdicts: list[str] | None
    status: int | None


def words_of(path: Path) -> list[str] | None:
    """The lines of a file, if it is there."""
    return path.read_text(encoding="utf-8").splitlines() if path.exists() else None


def bytes_of(path: Path) -> bytes | None:
    """The bytes of a file, if it is there."""
    return path.read_bytes() if path.exists() else None


def read_row(folder: Path, source: Path) -> Row:
    """The row of a folder, on the bytes of a file, which may be missing where it is the row's own input."""
    unknown = {path.name for path in folder.iterdir()} - FILES
    if unknown:
        raise ValueError(f"{sorted(unknown)} isn't a file of a row")
    words, status = words_of(folder / "words"), words_of(folder / "status")
    row = Row(
        words=words or [],
        source=(bytes_of(source) or b"") if source.parent == folder else source.read_bytes(),
        then=words_of(folder / "then"),
        output=bytes_of(folder / "output"),
        last=bytes_of(folder / "last"),
        verdicts=words_of(folder / "verdicts"),
        status=int(status[0]) if status else None,
    )
    if words is None or sum(part is not None for part in (row.output, row.last, row.verdicts)) != 1:
        raise ValueError("a row has words, and one of output, last and verdicts")
    if (row.status is None) != (row.verdicts is not None):
        raise ValueError("a row has a status, unless it has verdicts")
    return row


def judge(row: Row, setting: Setting) -> Outcome:
    """Runs a row's commands, and compares."""
    ended = setting.run(row.words, row.source)
    faults = difference("standard error", b"", ended.err)
    if row.then is not None and not faults:
        faults = difference(f"status of {' '.join(row.words)}", 0, ended.status)
        ended = setting.run(row.then, ended.out)
        faults += difference("standard error", b"", ended.err)
    if row.verdicts is not None:
        return Outcome(faults + verdict_faults(row, row.verdicts, ended, setting))
    if row.last is not None:
        *_, line = [b"", *ended.out.splitlines(keepends=True)]
        faults += difference("last line", row.last, line)
    else:
        faults += difference("output", row.output, ended.out)
    return Outcome(faults + difference("status", row.status, ended.status))


def verdict_faults(row: Row, wanted: list[str], ended: Ended, setting: Setting) -> list[str]:
    """What is wrong with a report where verdicts are wanted: one of those that a line allows. Each list is replayed."""
    try:
        verdicts = read_report(ended.out)
    except Malformed as fault:
        return difference(str(fault), "\n          ".join(wanted), ended.out)
    faults = difference("status", status_of(verdicts), ended.status)
    faults += difference("number of assertions", len(wanted), len(verdicts))
    for line, verdict in zip(wanted, verdicts):
        if not is_allowed(line, verdict):
            faults += difference("verdict", line, f"{verdict.place}: {verdict.text}")
        if verdict.kind == "found":
            faults += replay_faults(setting, row.source, verdict.place, verdict.inputs)
    return faults


def is_allowed(line: str, verdict: Verdict) -> bool:
    """Whether a verdict is one of `PLACE: VERDICT or VERDICT`. `found` alone allows any list."""
    place, _, allowed = line.partition(": ")
    return place == verdict.place and any(text in (verdict.text, verdict.kind) for text in allowed.split(" or "))


def row_case(name: str, folder: Path, source: Path) -> Case:
    """The case of a row's folder. One that can't be read fails."""

    def judged(setting: Setting) -> Outcome:
        try:
            row = read_row(folder, source)
        except (OSError, ValueError) as fault:
            return Outcome([f"the row can't be read: {fault}"])
        return judge(row, setting)

    return Case(name, judged, cost=1)


def row_cases(tests: Path) -> Iterator[Case]:
    """Each row of tests/rows."""
    for folder in sorted((tests / "rows").iterdir()):
        yield row_case(f"rows/{folder.name}", folder, folder / "input")
