"""What is known of a file and of its assertions."""
from dataclasses import dataclass, field
from typing import NamedTuple

from files.reports import Place, Refusal

PROVED, FOUND, OPEN = "proved", "found", "open"


class Step(NamedTuple):
    """A step of a run: where it stands, what happened, and the number of the input that it took, or 0."""

    place: Place
    text: str
    input: int = 0


class Hint(NamedTuple):
    """What to write in place of something that the language doesn't have."""

    place: Place
    construct: str
    remedy: str


@dataclass
class Assertion:
    """An assertion: its number from 1, its place, its procedure and its text, and what is known of it."""

    number: int
    place: Place
    procedure: str = ""
    text: str = ""
    state: str = OPEN
    stage: str = ""
    inputs: tuple[int, ...] = ()
    reasons: dict[str, str] = field(default_factory=dict)
    steps: list[Step] = field(default_factory=list)
    trace_fault: str = ""
    is_unreached: bool = False
    is_known: bool = False
    proof: str = ""
    bundle: bytes = field(default=b"", repr=False)

    @property
    def reason(self) -> str:
        """Why it isn't settled: what each stage said."""
        return ", ".join(dict.fromkeys(self.reasons.values())) or "nothing was tried"


@dataclass
class Checked:
    """A file: its name, its bytes if it could be read, and what is known of it."""

    name: str
    text: bytes | None = None
    fault: str = ""
    refusal: Refusal | None = None
    hints: list[Hint] = field(default_factory=list)
    assertions: list[Assertion] = field(default_factory=list)
    warnings: list[str] = field(default_factory=list)

    @property
    def is_refused(self) -> bool:
        """Whether nothing was checked: it can't be read, or it isn't in the language."""
        return self.refusal is not None or self.text is None

    def status(self) -> int:
        """The exit status of this file alone."""
        if self.is_refused:
            return 3
        states = {it.state for it in self.assertions if not it.is_known}
        return 1 if FOUND in states else 2 if OPEN in states or self.fault else 0


# The statuses from the best to the worst: what wasn't checked at all is worse than what was.
ORDER = (0, 2, 1, 3)


def worst(files: list[Checked]) -> int:
    """The exit status of the worst file."""
    return max((it.status() for it in files), key=ORDER.index, default=0)
