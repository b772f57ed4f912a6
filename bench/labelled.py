"""Labelled programs for measurements, and programs that are run with their processor time.

A folder of them has a `truth.tsv` with a line for each assertion: its file and its truth (`proved`
or `found`), by its number (`program assertion truth`) or its place (`file line column truth`, or
`program place truth` for `programs/` in the folder).
"""

import csv
import os
import subprocess
import tempfile
from dataclasses import dataclass, field
from pathlib import Path

TOP = Path(__file__).resolve().parent.parent


@dataclass(frozen=True)
class Ended:
    """A program's status, what it printed, and its seconds of processor time."""

    status: int
    output: bytes
    errors: str
    seconds: float

    def text(self) -> str:
        """What it printed, as a text."""
        return self.output.decode("utf-8", "replace")


@dataclass
class Program:
    """A labelled program: what is true of its assertions, by their numbers or places."""

    path: Path
    group: str
    truths: dict[int, str] = field(default_factory=dict)
    places: dict[tuple[int, int], str] = field(default_factory=dict)

    def truth(self, number: int, place: tuple[int, int]) -> str:
        """What is true of an assertion."""
        return self.truths.get(number) or self.places.get(place, "unknown")

    def all_truths(self) -> list[str]:
        """What is true of all assertions."""
        return [*self.truths.values(), *self.places.values()]


def labelled(folder: Path) -> list[Program]:
    """The programs of a folder with their labels."""
    programs: dict[str, Program] = {}
    with (folder / "truth.tsv").open(newline="") as table:
        for row in csv.DictReader(table, delimiter="\t"):
            name = row.get("program") or row["file"]
            there = folder / "programs" / name if "place" in row else folder / name
            program = programs.setdefault(name, Program(there, group_of(folder, name)))
            if "assertion" in row:
                program.truths[int(row["assertion"])] = row["truth"]
                continue
            line, column = row["place"].split(":") if "place" in row else (row["line"], row["column"])
            program.places[int(line), int(column)] = row["truth"]
    return list(programs.values())


def group_of(folder: Path, name: str) -> str:
    """The folder in which a program stands."""
    return name.rpartition("/")[0] or folder.name


def run(words: list[str], source: bytes = b"") -> Ended:
    """A program's end, with the processor time of it and of the programs that it ran."""
    with tempfile.TemporaryFile() as given, tempfile.TemporaryFile() as printed:
        given.write(source)
        given.seek(0)
        with tempfile.TemporaryFile() as said:
            child = subprocess.Popen(words, stdin=given, stdout=printed, stderr=said, cwd=TOP)
            _, status, usage = os.wait4(child.pid, 0)
            child.returncode = os.waitstatus_to_exitcode(status)
            printed.seek(0)
            said.seek(0)
            seconds = usage.ru_utime + usage.ru_stime
            errors = said.read().decode("utf-8", "replace")
            return Ended(child.returncode, printed.read(), errors, seconds)
