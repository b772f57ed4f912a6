"""What the tests of the bridge share: programs, labelled sources, and cases."""

import csv
import os
import shutil
import subprocess
import sys
from collections.abc import Callable
from dataclasses import dataclass
from functools import cache
from pathlib import Path

from outside.graphs import Graphs, read_graphs

TOP = Path(__file__).resolve().parent.parent.parent


@dataclass(frozen=True)
class Label:
    """An assertion of a labelled program, by its number from 1."""

    path: Path
    number: int
    place: str
    truth: str


@dataclass(frozen=True)
class Setting:
    """The programs that are tested, and where the labelled ones are."""

    program: str
    graphs: str | None
    labelled: Path
    all: bool

    def allows(self, case: "Case") -> bool:
        """Whether what a case needs is there."""
        return bool(self.graphs) and (not case.needs_z3 or shutil.which("z3") is not None)

    def missing(self) -> str:
        """What isn't there."""
        if not self.graphs:
            return "there is no program that prints graphs"
        return "z3 isn't there: it is Debian's package z3 (apt-get install z3)"

    def recheck(self, bundle: bytes) -> str:
        """What `recheck` prints."""
        done = subprocess.run([self.program, "recheck"], input=bundle, capture_output=True, timeout=120)
        return done.stdout.decode("utf-8", "replace")

    def check(self, source: bytes) -> list[str]:
        """The lines of a check, without its summary."""
        words = [self.program, "check", "--workers", "1", "--budget", "300"]
        done = subprocess.run(words, input=source, capture_output=True, timeout=300)
        return done.stdout.decode("utf-8", "replace").splitlines()[:-1]

    def graphs_text(self, source: bytes) -> str:
        """The text of a source's graphs."""
        assert self.graphs
        done = subprocess.run([self.graphs], input=source, capture_output=True, timeout=60)
        return done.stdout.decode()

    def read_graphs(self, path: Path) -> Graphs:
        """The graphs of a file."""
        return read_graphs(self.graphs_text(path.read_bytes()))

    def bridge(
        self, path: Path, number: int, seconds: float, first_on_path: Path | None = None
    ) -> subprocess.CompletedProcess:
        """The bridge's command, perhaps with another z3."""
        assert self.graphs
        words = [sys.executable, "-m", "outside", str(number), "--seconds", str(seconds)]
        there = os.environ["PATH"]
        path_words = f"{first_on_path}:{there}" if first_on_path else there
        return subprocess.run(
            [*words, "--graphs", self.graphs, str(path)],
            capture_output=True,
            timeout=25 * seconds + 100,
            env={**os.environ, "PATH": path_words, "PYTHONPATH": str(TOP)},
        )


@dataclass(frozen=True)
class Case:
    """A test: it gives what is wrong, line by line."""

    name: str
    test: Callable[..., list[str]]
    given: tuple = ()
    needs_z3: bool = True


@cache
def labels(folder: Path) -> list[Label]:
    """All labelled assertions, in source order."""
    found: list[Label] = []
    numbers: dict[str, int] = {}
    with (folder / "truth.tsv").open(newline="") as table:
        for row in csv.DictReader(table, delimiter="\t"):
            name = row["program"]
            numbers[name] = numbers.get(name, 0) + 1
            path = folder / "programs" / name
            found.append(Label(path, numbers[name], row["place"], row["truth"]))
    return found


def label(folder: Path, name: str, number: int) -> Label:
    """One labelled assertion."""
    path = folder / "programs" / name
    return next(x for x in labels(folder) if x.path == path and x.number == number)


def refused_claim(setting: Setting, bundle: bytes, place: str) -> list[str]:
    """A fault where `recheck` accepts a claim that is false."""
    answer = setting.recheck(bundle)
    return [f"{place} fails, and recheck says {answer!r}"] if answer.startswith("accepted") else []
