"""Counts the outcomes of the cases, and makes the lines that are printed of them."""
from collections import Counter
from collections.abc import Mapping
from dataclasses import dataclass, field
from pathlib import Path

from suite.cases import Case, Outcome, difference
from suite.labelled import read_labels
from suite.tables import read_table


@dataclass
class Tally:
    """How many passed and failed by group, and how many labelled assertions are settled by folder."""

    passed: Counter[str] = field(default_factory=Counter)
    failed: Counter[str] = field(default_factory=Counter)
    notes: dict[str, str] = field(default_factory=dict)
    settled: Counter[str] = field(default_factory=Counter)
    ran: Counter[str] = field(default_factory=Counter)
    wrong: int = 0

    def add(self, case: Case, outcome: Outcome) -> None:
        """Counts a case. A folder with tests of its own counts as many as it says."""
        if outcome.passed is not None:
            self.passed[case.group] += outcome.passed
            self.failed[case.group] += outcome.failed
            self.notes[case.group] = outcome.note
        else:
            self.count(case.group, not outcome.faults)
        if case.group == "programs" and case.name.endswith(".c"):
            folder = case.name.split("/")[1]
            self.ran[folder] += 1
            self.settled[folder] += outcome.settled
            self.wrong += outcome.wrong

    def count(self, group: str, is_passed: bool) -> None:
        """Counts one that passed or failed."""
        self.passed[group] += is_passed
        self.failed[group] += not is_passed


def check_floors(tests: Path, tally: Tally) -> list[str]:
    """Counts for each folder of labelled programs that ran whole whether as many assertions are settled as tests/floor.tsv
    asks for, and returns the faults."""
    floors = {folder: int(settled) for folder, settled in read_table(tests / "floor.tsv", ("folder", "settled"))}
    programs = Counter(name.split("/")[0] for name in read_labels(tests))
    faults = []
    for folder in sorted({*floors} | {*programs}):
        if tally.ran[folder] != programs[folder]:
            continue
        floor, settled = floors.get(folder), tally.settled[folder]
        is_kept = folder in programs and floor is not None and settled >= floor
        tally.count("floors", is_kept)
        if not is_kept:
            wanted = "a row of this folder" if floor is None else f"{floor} or more"
            faults += difference(f"settled in {folder}, by tests/floor.tsv", wanted, str(settled))
        elif floor is not None and settled > floor:
            tally.notes["floors"] = "tests/floor.tsv can be raised"
    return faults


def said(tests: Path, tally: Tally) -> list[str]:
    """What is printed of a tally: a line for each group, and one for each folder of labelled programs."""
    lines = []
    for group in tally.passed:
        failed = f", {tally.failed[group]} failed" if tally.failed[group] else ""
        note = f", {tally.notes[group]}" if tally.notes.get(group) else ""
        lines.append(f"{group:10} {tally.passed[group]:5} passed{failed}{note}")
    owed = owed_by_folder(tests, tally.ran)
    for folder, count in owed.items():
        lines.append(f"  {folder:14} {tally.settled[folder]:4} of {count:4} settled")
    if owed:
        lines.append(f"settled {sum(tally.settled.values())} of {sum(owed.values())} assertions, wrong {tally.wrong}")
    return lines


def owed_by_folder(tests: Path, ran: Mapping[str, int]) -> dict[str, int]:
    """How many labelled assertions each folder has of which a program ran."""
    owed: Counter[str] = Counter()
    for name, labels in read_labels(tests).items():
        owed[name.split("/")[0]] += len(labels)
    return {folder: owed[folder] for folder in sorted(ran)}
