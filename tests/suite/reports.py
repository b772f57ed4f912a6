"""Reads the reports of `check` and its kin: a line for each assertion, and a summary."""
import re
from collections import Counter
from collections.abc import Sequence
from dataclasses import dataclass

from suite.cases import Setting, difference

LIMITS = "wide|rows|columns|branches|inexact"
REASON = rf"budget \d+ spent|sweep \d+ spent|solver limit: (?:{LIMITS})"
LINE = re.compile(rf"(\d+:\d+): (proved|found (?:\[\]|\[-?\d+(?:, -?\d+)*\])|unknown \((?:{REASON})\))")
# The most fuel, since a failing run may be long.
FUEL = "1000000000"


class Malformed(Exception):
    """A text isn't a report."""


@dataclass(frozen=True)
class Verdict:
    """What is said of the assertion at a place: `proved`, `found [1, 2]`, `unknown (budget 2000 spent)`."""

    place: str
    text: str

    @property
    def kind(self) -> str:
        """`proved`, `found` or `unknown`."""
        return self.text.split()[0]

    @property
    def inputs(self) -> str:
        """The list of a `found`."""
        return self.text.removeprefix("found ")


def read_report(out: bytes) -> list[Verdict]:
    """The verdicts of a report, whose summary has to count them."""
    *lines, end = out.decode(errors="replace").split("\n")
    if end or not lines:
        raise Malformed("the report has no last line that ends in a line feed")
    *lines, last = lines
    found = [LINE.fullmatch(line) for line in lines]
    for line, match in zip(lines, found):
        if not match:
            raise Malformed(f"'{line[:200]}' is no line of a report")
    verdicts = [Verdict(match[1], match[2]) for match in found if match]
    if last != summary_of(verdicts):
        raise Malformed(f"the last line is '{last[:200]}', and '{summary_of(verdicts)}' is due")
    return verdicts


def summary_of(verdicts: Sequence[Verdict]) -> str:
    """The last line of a report with these verdicts."""
    kinds = Counter(verdict.kind for verdict in verdicts)
    return f"summary: {kinds['proved']} proved, {kinds['found']} found, {kinds['unknown']} unknown"


def status_of(verdicts: Sequence[Verdict]) -> int:
    """The status of a report with these verdicts."""
    kinds = {verdict.kind for verdict in verdicts}
    return 1 if "found" in kinds else 2 if "unknown" in kinds else 0


def replay_faults(setting: Setting, source: bytes, place: str, inputs: str) -> list[str]:
    """What is wrong with a list: the run on exactly these inputs has to fail at that place."""
    count = len(re.findall(r"\d+", inputs))
    ended = setting.run(["replay", "--fuel", FUEL, inputs], source)
    wanted = f"failed {place}, inputs used {count}\n".encode()
    return [
        *difference(f"output of replay '{inputs[:200]}'", wanted, ended.out),
        *difference(f"status of replay '{inputs[:200]}'", 1, ended.status),
        *difference(f"standard error of replay '{inputs[:200]}'", b"", ended.err),
    ]
