"""The lines that the proved program prints, read strictly: what isn't exactly such a text is `Malformed`."""
import re
from dataclasses import dataclass, field
from typing import NamedTuple

Place = tuple[int, int]

VALUE = r"(?:0|-?[1-9][0-9]*)"
LIST = rf"\[(?:{VALUE}(?:, {VALUE})*)?\]"
PLACE = r"([1-9][0-9]*):([1-9][0-9]*)"
REASON = r"(?:budget|sweep) [1-9][0-9]* spent|solver limit: (?:wide|rows|columns|branches|inexact)"
VERDICT = re.compile(rf"{PLACE}: (?:(proved)|found ({LIST})|unknown \(({REASON})\))", re.A)
SUMMARY = re.compile(r"summary: ([0-9]+) proved, ([0-9]+) found, ([0-9]+) unknown", re.A)
REFUSED = re.compile(rf"refused(?: {PLACE})?: ([ -~]+)", re.A)
FAILED = re.compile(rf"failed {PLACE}, inputs used ([0-9]+)", re.A)
REPLAYED = re.compile(
    rf"(?:returned {VALUE}, inputs used [0-9]+|stopped, inputs used [0-9]+|starved, inputs used [0-9]+|fuel [0-9]+ spent)", re.A)
REPLAY_STATUS = {"returned": 0, "failed": 1, "stopped": 0, "starved": 2, "fuel": 2}
ACCEPTED = re.compile(rf"accepted {PLACE}", re.A)
BUNDLE_HEAD = re.compile(rb"smash-bundle 1\nsource (0|[1-9][0-9]*)\n")
BUNDLE_ASSERT = re.compile(rb"\nassert ([1-9][0-9]*)\n")
MEANINGS = {4: "the words are no command", 5: "a read failed", 6: "a write failed", 7: "out of memory"}


class Malformed(Exception):
    """The program ended without a text of its own; the reason is the message."""


class Verdict(NamedTuple):
    """A line of a report: `proved`, `found` with its inputs, or `unknown` with its reason."""

    place: Place
    word: str
    inputs: tuple[int, ...] = ()
    reason: str = ""


@dataclass(frozen=True)
class Refusal:
    """The line of a refused source; without a place where it is too long."""

    place: Place | None
    text: str


@dataclass(frozen=True)
class Report:
    """The verdicts of a report, in source order."""

    verdicts: list[Verdict] = field(default_factory=list)


def lines_of(output: bytes) -> list[str]:
    """The lines of an output, each of which ends with a line feed."""
    text = output.decode("latin-1")
    if not text.endswith("\n"):
        raise Malformed("the program's last line has no end" if text else "the program printed nothing")
    return text[:-1].split("\n")


def ending(status: int | None) -> str:
    """How a program ended that has a status which none of its texts has."""
    if status is None:
        return "it was stopped"
    if status < 0:
        return f"the program was ended by signal {-status}"
    meaning = MEANINGS.get(status)
    return f"the program ended with status {status}" + (f": {meaning}" if meaning else "")


def values_of(text: str) -> tuple[int, ...]:
    """The values of a list in brackets."""
    inner = text[1:-1]
    return tuple(int(it) for it in inner.split(", ")) if inner else ()


def list_text(values: tuple[int, ...]) -> str:
    """A list as the program writes and reads it."""
    return "[" + ", ".join(map(str, values)) + "]"


def verdict_of(line: str) -> Verdict:
    """A line of a report."""
    it = VERDICT.fullmatch(line)
    if it is None:
        raise Malformed(f"the program printed {line[:80]!r}")
    place = (int(it[1]), int(it[2]))
    if it[3]:
        return Verdict(place, "proved")
    if it[4]:
        return Verdict(place, "found", values_of(it[4]))
    return Verdict(place, "unknown", reason=it[5])


def report_of(output: bytes, status: int | None) -> Report | Refusal:
    """The report or the refusal of `check` and `sweep`. Its lines, its counts and its status have to agree."""
    if status not in (0, 1, 2, 3):
        raise Malformed(ending(status))
    *lines, last = lines_of(output)
    if status == 3:
        return refusal_of(lines, last)
    verdicts = [verdict_of(line) for line in lines]
    words = [it.word for it in verdicts]
    counts = [words.count(word) for word in ("proved", "found", "unknown")]
    summary = SUMMARY.fullmatch(last)
    if summary is None or [int(it) for it in summary.groups()] != counts:
        raise Malformed(f"the program's summary isn't that of its lines: {last[:80]!r}")
    if status != (1 if counts[1] else 2 if counts[2] else 0):
        raise Malformed(f"the program's status {status} isn't that of its lines")
    places = [it.place for it in verdicts]
    if places != sorted(set(places)):
        raise Malformed("the program's lines aren't in order")
    return Report(verdicts)


def refusal_of(lines: list[str], last: str) -> Refusal:
    """The one line of a refusal."""
    it = REFUSED.fullmatch(last)
    if lines or it is None:
        raise Malformed(f"the program's status is 3, and it printed {last[:80]!r}")
    return Refusal((int(it[1]), int(it[2])) if it[1] else None, it[3])


def replay_of(output: bytes, status: int | None) -> str:
    """The line of a replay."""
    if status not in (0, 1, 2):
        raise Malformed(ending(status))
    lines = lines_of(output)
    if len(lines) != 1 or not (FAILED.fullmatch(lines[0]) or REPLAYED.fullmatch(lines[0])):
        raise Malformed(f"the program's replay printed {lines[0][:80]!r}")
    if status != REPLAY_STATUS[lines[0].split(" ")[0].rstrip(",")]:
        raise Malformed(f"the program's status {status} isn't that of {lines[0][:80]!r}")
    return lines[0]


def failure_of(line: str) -> tuple[Place, int] | None:
    """Where a replay failed, and on how many inputs."""
    it = FAILED.fullmatch(line)
    return ((int(it[1]), int(it[2])), int(it[3])) if it else None


def accepted_of(output: bytes, status: int | None) -> Place | None:
    """The place that `recheck` accepted, if it did."""
    if status != 0:
        return None
    lines = lines_of(output)
    it = ACCEPTED.fullmatch(lines[0]) if len(lines) == 1 else None
    return (int(it[1]), int(it[2])) if it else None


def bundle_of(output: bytes) -> tuple[bytes, int] | None:
    """The source that a bundle holds and the number of its assertion, or None where the bytes don't begin as a bundle."""
    head = BUNDLE_HEAD.match(output)
    if head is None:
        return None
    end = head.end() + int(head[1])
    number = BUNDLE_ASSERT.match(output, end)
    return (output[head.end():end], int(number[1])) if number else None
