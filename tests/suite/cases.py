"""Cases, their outcomes, and the setting in which they are judged."""
from collections.abc import Callable, Sequence
from dataclasses import dataclass, field
from pathlib import Path

from suite.children import Children, Ended

# The most lines of an output that a failure shows.
SHOWN = 12


@dataclass(frozen=True)
class Setting:
    """The program at hand, and how it is run. The path of the program that prints graphs is empty where none is given."""

    top: Path
    program: str
    graphs: str
    limit: float
    children: Children

    def run(self, words: Sequence[str], source: bytes = b"") -> Ended:
        """Runs the program at hand with these words on these bytes."""
        return self.children.run([self.program, *words], source, self.limit)

    @property
    def tests(self) -> Path:
        """The folder of the tests."""
        return self.top / "tests"


@dataclass
class Outcome:
    """The outcome of a case: its faults, and for a labelled program the assertions that were settled and those that were
    answered wrongly. A folder of tests has counts of its own."""

    faults: list[str] = field(default_factory=list)
    settled: int = 0
    wrong: int = 0
    passed: int | None = None
    failed: int = 0
    note: str = ""


@dataclass(frozen=True)
class Case:
    """One thing that is tested. Dear ones are begun first."""

    name: str
    judge: Callable[[Setting], Outcome]
    cost: int = 0

    @property
    def group(self) -> str:
        """What the case is counted with."""
        return self.name.split("/")[0]


def difference(what: str, wanted: object, came: object) -> list[str]:
    """A fault where what came isn't what was wanted."""
    if wanted == came:
        return []
    return [f"{what}\n  wanted: {shown(wanted)}\n  came:   {shown(came)}"]


def shown(value: object) -> str:
    """A value in a few lines. Bytes are shown as their text, one line under the other."""
    if value is None:
        return "no end within the limit of seconds"
    if not isinstance(value, bytes):
        return str(value)
    lines = value.decode(errors="backslashreplace").split("\n")
    last = lines.pop()
    if last:
        lines.append(f"{last} (without a line feed)")
    if len(lines) > SHOWN:
        lines[SHOWN:] = [f".. {len(lines) - SHOWN} more lines"]
    return "\n          ".join(line[:200] for line in lines) if lines else "nothing"
