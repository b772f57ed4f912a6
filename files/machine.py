"""Runs of a program of the accepted language on given inputs, with the steps counted as the proved `replay` counts them.

The procedures are compiled to closures (`files/compiler.py`): an expression takes the slots of its procedure and gives
its value, a statement gives how it goes on. A `Watcher` is told what happens; without one nothing is asked, so that many
runs are cheap.
"""
import sys
from collections.abc import Callable, Sequence
from typing import NamedTuple

from files.lexer import Lines
from files.parser import FRAMES
from files.tree import Call, DoWhile, File, If, Loop, Procedure, Return

LEAST, GREATEST = -2**63, 2**63 - 1
NORMAL, BROKEN, CONTINUED, RETURNED = range(4)
# A variable: whether it is a global, and its number among the globals or the procedure's slots.
Variable = tuple[bool, int]
Evaluate = Callable[[list[int]], int]
Execute = Callable[[list[int]], int]
Condition = If | Loop | DoWhile


class Ended(Exception):
    """A run that ends before `main` returns: `stopped`, `failed`, `starved` or `fuel`."""

    def __init__(self, how: str, place: tuple[int, int] | None = None) -> None:
        super().__init__(how)
        self.how, self.place = how, place


class Outcome(NamedTuple):
    """How a run ends: `returned`, `failed`, `stopped`, `starved` or `fuel`, with its value or place and the inputs used."""

    how: str
    value: int
    place: tuple[int, int] | None
    used: int
    fuel: int

    def line(self) -> str:
        """The line that `replay` prints of such a run."""
        if self.how == "fuel":
            return f"fuel {self.fuel} spent"
        what = {"returned": f" {self.value}", "failed": " %d:%d" % (self.place or (0, 0))}.get(self.how, "")
        return f"{self.how}{what}, inputs used {self.used}"


class Watcher:
    """Is told what happens in a run. This one does nothing."""

    def entered(self, procedure: Procedure, call: Call | None, slots: list[int]) -> None:
        """A procedure begins with these slots; nothing calls `main`."""

    def left(self, procedure: Procedure, value: int) -> None:
        """A procedure ended with this value."""

    def took(self, call: Call, value: int) -> None:
        """An input was taken."""

    def assigned(self, at: object, variable: Variable, value: int) -> None:
        """A declarator or an assignment gave a variable a value."""

    def branched(self, at: Condition, truth: bool) -> None:
        """A condition was evaluated."""

    def joined(self, at: Condition) -> None:
        """What a condition decided has ended, and the procedure goes on behind it."""

    def returns(self, at: Return) -> None:
        """A `return` was executed, and its value evaluated."""

    def failed(self, call: Call) -> None:
        """An assertion failed."""


class Body(NamedTuple):
    """A compiled procedure."""

    tree: Procedure
    slots: int
    execute: Execute


class Machine:
    """A compiled program, and what all procedures of a run share: the inputs, the globals and the fuel that is left.

    For the watcher `names` keeps, by the `id` of a node, which variables the node reads.
    """

    def __init__(self, tree: File, lines: Lines, watcher: Watcher | None,
                 ways: Callable[[Condition, bool], None] | None) -> None:
        self.tree, self.lines, self.watcher, self.ways = tree, lines, watcher, ways
        self.inputs: Sequence[int] = ()
        self.used = self.left = 0
        self.value = 0
        self.globals: list[int] = []
        self.bodies: dict[str, Body] = {}
        self.names: dict[int, dict[str, Variable]] = {}

    def run(self, inputs: Sequence[int], fuel: int) -> Outcome:
        """A run of `main` on these inputs, of at most so many steps."""
        sys.setrecursionlimit(max(sys.getrecursionlimit(), FRAMES))
        self.inputs, self.used, self.left = inputs, 0, fuel
        self.globals = [it.value for it in self.tree.globals]
        try:
            outcome = Outcome("returned", self.enter(self.bodies["main"], None, []), None, self.used, fuel)
        except Ended as it:
            outcome = Outcome(it.how, 0, it.place, self.used, fuel)
        return outcome if self.left >= 0 else outcome._replace(how="fuel")

    def spend(self) -> None:
        """Counts a step that may come again and again, and ends the run where none was left.

        Other steps are only counted: a run that needed more than its fuel is told apart at its end.
        """
        if self.left <= 0:
            self.left = -1
            raise Ended("fuel")
        self.left -= 1

    def take(self) -> int:
        """The next input."""
        if self.used == len(self.inputs):
            raise Ended("starved")
        self.used += 1
        return self.inputs[self.used - 1]

    def enter(self, body: Body, call: Call | None, arguments: list[int]) -> int:
        """A call of a procedure; what it gives."""
        if self.left < 0:
            raise Ended("fuel")
        slots = arguments + [0] * (body.slots - len(arguments))
        if self.watcher:
            self.watcher.entered(body.tree, call, slots)
        value = self.value if body.execute(slots) == RETURNED and not body.tree.is_void else 0
        if self.watcher:
            self.watcher.left(body.tree, value)
        return value
