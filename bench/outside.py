#!/usr/bin/env python3
"""What z3's proofs add: labelled programs by `smash check`, and by the bridge with `smash recheck`.

usage: bench/outside.py [--program PATH] [--graphs PATH] [--seconds N] [--jobs N] [--only TEXT]
                        [--each] [--all] FOLDER..

Each FOLDER has a `truth.tsv`; bench/labelled.py says of what forms. For each folder: the assertions
that are true, those that `check --workers 1` proves, those for which `recheck` accepts a bundle, the
processor seconds of both, and what is wrong: an accepted bundle where the truth is `found`, or for
another place than the assertion's. The last line is `N accepted of M, K wrong`, and the status is 1
where something is wrong.
"""

import argparse
import re
import sys
from concurrent.futures import ThreadPoolExecutor
from dataclasses import dataclass, field
from pathlib import Path

from labelled import TOP, Program, labelled, run

LINE = re.compile(r"(\d+):(\d+): (proved|found|unknown)")


@dataclass
class Measured:
    """What was measured of a program."""

    program: Program
    proved: int = 0
    accepted: int = 0
    check_seconds: float = 0.0
    bridge_seconds: float = 0.0
    wrong: list[str] = field(default_factory=list)


class Bench:
    """Runs both on programs."""

    def __init__(self, given: argparse.Namespace) -> None:
        self.given = given

    def measure(self, program: Program) -> Measured:
        """Checks a program, and then asks for each of its assertions."""
        measured = Measured(program)
        checked = run([self.given.program, "check", "--workers", "1"], program.path.read_bytes())
        measured.check_seconds = checked.seconds
        lines = [LINE.match(line) for line in checked.text().splitlines()]
        for number, line in enumerate((line for line in lines if line), 1):
            measured.proved += line[3] == "proved"
            self.bridge(measured, number, (int(line[1]), int(line[2])))
        return measured

    def bridge(self, measured: Measured, number: int, place: tuple[int, int]) -> None:
        """One assertion by the bridge."""
        truth = measured.program.truth(number, place)
        if truth != "proved" and not self.given.all:
            return
        words = [sys.executable, "-m", "outside", str(number), "--seconds", str(self.given.seconds)]
        if self.given.graphs:
            words += ["--graphs", self.given.graphs]
        found = run([*words, str(measured.program.path.absolute())])
        seconds, accepted, text = found.seconds, False, found.errors
        if found.status == 0:
            again = run([self.given.program, "recheck"], found.output)
            seconds, text = seconds + again.seconds, again.text()
            accepted = again.status == 0 and text == f"accepted {place[0]}:{place[1]}\n"
        if truth == "proved":
            measured.bridge_seconds += seconds
        self.note(measured, number, truth, accepted, text)

    def note(self, measured: Measured, number: int, truth: str, accepted: bool, text: str) -> None:
        """Counts what came of an assertion."""
        where = f"{measured.program.path}: {number}"
        measured.accepted += accepted and truth == "proved"
        if self.given.each and truth == "proved" and not accepted:
            print(f"  {where}: {text.strip()[:200]}", flush=True)
        if accepted and truth != "proved" or text.startswith("accepted") and not accepted:
            measured.wrong.append(f"{where}: {truth}, {text.strip()[:80]}")


def true_ones(measured: list[Measured]) -> int:
    """How many assertions can't fail."""
    return sum(m.program.all_truths().count("proved") for m in measured)


def table(folder: Path, measured: list[Measured]) -> None:
    """A folder's line of the table."""
    proved, accepted = sum(m.proved for m in measured), sum(m.accepted for m in measured)
    check = sum(m.check_seconds for m in measured)
    bridge = sum(m.bridge_seconds for m in measured)
    wrong = sum(len(m.wrong) for m in measured)
    row = f"{true_ones(measured):6} {proved:8} {accepted:10} {check:10.1f} {bridge:10.1f} {wrong:7}"
    print(f"{folder.name:12} {row}", flush=True)


def words() -> argparse.Namespace:
    """The words of the command line."""
    parser = argparse.ArgumentParser(description="what z3's proofs add to smash check")
    parser.add_argument("folders", nargs="+", type=Path, metavar="FOLDER")
    parser.add_argument("--program", default=str(TOP / "smash"), help="checks and rechecks")
    parser.add_argument("--graphs", help="prints the graphs of a source")
    parser.add_argument("--seconds", type=float, default=10.0, help="for each assertion")
    parser.add_argument("--jobs", type=int, default=1, help="programs at once")
    parser.add_argument("--only", default="", help="files with this text in their names")
    parser.add_argument("--each", action="store_true", help="a line for each that isn't accepted")
    parser.add_argument("--all", action="store_true", help="asks also for those that fail")
    return parser.parse_args()


def main() -> int:
    """The table, with its status."""
    given = words()
    bench = Bench(given)
    head = f"{'true':>6} {'check':>8} {'accepted':>10} {'check s':>10} {'bridge s':>10} {'wrong':>7}"
    print(f"{'set':12} {head}")
    everything: list[Measured] = []
    for folder in given.folders:
        programs = [p for p in labelled(folder) if given.only in str(p.path)]
        with ThreadPoolExecutor(given.jobs) as pool:
            measured = list(pool.map(bench.measure, programs))
        table(folder, measured)
        everything += measured
    wrong = [text for measured in everything for text in measured.wrong]
    for text in wrong:
        print(f"wrong: {text}")
    accepted = sum(m.accepted for m in everything)
    print(f"{accepted} accepted of {true_ones(everything)}, {len(wrong)} wrong")
    return 1 if wrong else 0


if __name__ == "__main__":
    sys.exit(main())
