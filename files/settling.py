"""Settles the assertions of one text by stages, each of them by the proved program.

A stage is asked only where something is still open, and each verdict that is taken from it is a line that the program
printed of this very text, a list on which its `replay` failed at that place, or a proof that its `recheck` accepted.
"""
import re
import sys
import time
from collections.abc import Callable
from dataclasses import dataclass

from files.engine import Engine
from files.program import TOP, Late, Program
from files.reports import LIST, Malformed, Refusal, Report, Verdict, failure_of, values_of
from files.results import FOUND, OPEN, PROVED, Assertion, Checked

FIRST, SWEEP, SECOND, LISTS = 2_000, 5_000, 20_000, 1_000
REPLAY_FUEL = 1_000_000
CANDIDATE = re.compile(rf"([1-9][0-9]*):([1-9][0-9]*) ({LIST})", re.A)
# Starts the search for lists as a process of its own, wherever it is called from.
SEARCH = "import sys; sys.path.insert(0, sys.argv[1]); from files.lists import main; main(sys.argv[2:])"


@dataclass(frozen=True)
class Limits:
    """Seconds of a file and of one stage, and whether the first stage is the only one."""

    file: float
    stage: float
    is_quick: bool = False


class Contradiction(Exception):
    """Two verdicts of one assertion that can't both be true."""


class Settler:
    """Settles one text."""

    def __init__(self, program: Program, text: bytes, limits: Limits, engine: Engine | None = None,
                 tell: Callable[[str], None] = lambda stage: None) -> None:
        self.program, self.text, self.limits, self.engine, self.tell = program, text, limits, engine, tell
        self.until = time.monotonic() + limits.file
        self.assertions: list[Assertion] = []

    def settle(self, checked: Checked) -> None:
        """Puts into a file what is found out about it."""
        try:
            checked.refusal = self.begin()
            checked.assertions = self.assertions
            if checked.refusal is None and not self.limits.is_quick:
                self.go_on()
        except Malformed as fault:
            checked.fault = str(fault)
        except OSError as fault:
            checked.fault = fault.strerror or str(fault)
        except Contradiction as fault:
            checked.fault = str(fault)
            for it in self.assertions:
                it.state, it.inputs, it.reasons = OPEN, (), {"fault": str(fault)}

    def name(self, checked: Checked) -> None:
        """Puts a file's assertions into it, and settles none of them."""
        try:
            report = self.places()
        except Malformed as fault:
            checked.fault = str(fault)
            return
        if isinstance(report, Refusal):
            checked.refusal = report
        else:
            checked.assertions = [Assertion(number, it.place) for number, it in enumerate(report.verdicts, 1)]

    def go_on(self) -> None:
        """The stages behind the first one."""
        self.report("sweep", f"sweep {SWEEP}", lambda seconds: self.program.sweep(self.text, SWEEP, seconds))
        self.report("check", f"check {SECOND}", lambda seconds: self.program.check(self.text, SECOND, seconds))
        self.search()
        if self.engine and self.engine.is_there():
            for it in self.open():
                self.by_engine(self.engine, it)

    # What stages share

    def open(self) -> list[Assertion]:
        """The assertions that aren't settled."""
        return [it for it in self.assertions if it.state == OPEN]

    def seconds(self, is_last: bool = False) -> float:
        """The limit of the next stage: at most half of what is left of the file's, so that the ones behind it get some."""
        left = self.until - time.monotonic()
        return min(self.limits.stage, left if is_last else left / 2)

    def short(self) -> float:
        """The limit of a run between stages: what is left of the file's, and a second at least."""
        return min(self.limits.stage, max(1.0, self.until - time.monotonic()))

    def late(self, kind: str, stage: str, seconds: float) -> None:
        """Notes that a stage was stopped, or had no time to begin."""
        for it in self.open():
            it.reasons[kind] = self.limit(stage, seconds)

    def limit(self, stage: str, seconds: float) -> str:
        """The limit that a stage met: its own, or that of the file."""
        return f"{seconds:.3g} s in {stage}" if seconds > 0 else f"{self.limits.file:.3g} s"

    def verdict(self, it: Assertion, found: Verdict, kind: str, stage: str) -> None:
        """Takes a line of the program for an assertion."""
        state = {"proved": PROVED, "found": FOUND}.get(found.word, OPEN)
        if state != OPEN and it.state not in (OPEN, state):
            raise Contradiction(f"{stage} says {found.word} of {it.place[0]}:{it.place[1]}, and {it.stage} says {it.state}")
        if it.state != OPEN:
            return
        it.state, it.inputs = state, found.inputs
        if state == OPEN:
            it.reasons[kind] = found.reason
        else:
            it.stage, it.reasons = stage, {}

    # Stages

    def begin(self) -> Refusal | None:
        """The first stage, which says which assertions there are. Where it is stopped, a budget of 1 says that."""
        stage, seconds = f"check {FIRST}", self.seconds(self.limits.is_quick)
        self.tell(stage)
        is_late = False
        try:
            report = self.program.check(self.text, FIRST, seconds)
        except Late:
            is_late = True
            report = self.places()
        if isinstance(report, Refusal):
            return report
        self.assertions = [Assertion(number, it.place) for number, it in enumerate(report.verdicts, 1)]
        for it, found in zip(self.assertions, report.verdicts):
            self.verdict(it, found, "check", "check 1" if is_late else stage)
        if is_late:
            self.late("check", stage, seconds)
        return None

    def places(self) -> Report | Refusal:
        """What a check with a budget of 1 says, which is nearly nothing but the places."""
        seconds = self.short()
        try:
            return self.program.check(self.text, 1, seconds)
        except Late:
            raise Malformed(self.limit("check 1", seconds)) from None

    def report(self, kind: str, stage: str, ask: Callable[[float], Report | Refusal]) -> None:
        """A stage that prints a report."""
        if not self.open():
            return
        self.tell(stage)
        seconds = self.seconds()
        try:
            report = ask(seconds)
        except Late:
            self.late(kind, stage, seconds)
            return
        except Malformed as fault:
            for it in self.open():
                it.reasons[kind] = f"{stage}: {fault}"
            return
        if isinstance(report, Refusal) or [it.place for it in report.verdicts] != [it.place for it in self.assertions]:
            raise Malformed(f"{stage} has other lines than check {FIRST}")
        for it, found in zip(self.assertions, report.verdicts):
            self.verdict(it, found, kind, stage)

    def search(self) -> None:
        """Lists of inputs, each of which the program's own `replay` has to confirm."""
        if not self.open():
            return
        stage, seconds = f"{LISTS} lists", self.seconds(self.engine is None)
        self.tell(stage)
        words = [str(LISTS), *("%d:%d" % it.place for it in self.open())]
        if seconds <= 0:
            self.late("lists", stage, seconds)
            return
        ran = self.program.processes.run([sys.executable, "-c", SEARCH, TOP, *words], self.text, seconds)
        for line in ran.output.decode("latin-1").split("\n"):
            candidate = CANDIDATE.fullmatch(line)
            if candidate:
                self.confirm((int(candidate[1]), int(candidate[2])), values_of(candidate[3]), stage)
        if ran.status is None:
            self.late("lists", stage, seconds)
        for it in self.open():
            it.reasons.setdefault("lists", stage if ran.status == 0 else "the search for lists failed")

    def confirm(self, place: tuple[int, int], inputs: tuple[int, ...], stage: str) -> None:
        """Takes a list where the program's `replay` of it fails at the place, and uses all of it."""
        try:
            line = self.program.replay(self.text, inputs, REPLAY_FUEL, self.short())
        except (Late, Malformed):
            return
        for it in self.assertions:
            if it.place == place and failure_of(line) == (place, len(inputs)):
                self.verdict(it, Verdict(place, "found", inputs), "lists", f"replay, {stage}")

    def by_engine(self, engine: Engine, it: Assertion) -> None:
        """A proof by the engine, where the program's `recheck` accepts it of this text and this assertion."""
        stage, seconds = engine.name, self.seconds(True)
        self.tell(stage)
        try:
            proof, reason = engine.proof(self.text, it.number, it.place, seconds)
        except Late:
            it.reasons["engine"] = self.limit(stage, seconds)
            return
        if proof is None:
            it.reasons["engine"] = reason
            return
        self.verdict(it, Verdict(it.place, "proved"), "engine", f"recheck, {stage}")
        it.bundle = proof
