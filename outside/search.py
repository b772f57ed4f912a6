"""The search for a bundle: ways to invariants, one after another, until a proof is made."""

from collections.abc import Callable, Iterator
from dataclasses import dataclass, replace

from outside.bundle import Bundle
from outside.claims import prove
from outside.clock import now
from outside.graphs import Graphs, Pick
from outside.houdini import kept_candidates
from outside.invariants import GaveUp, Invariants
from outside.linear import TooWide
from outside.model import invariants_of
from outside.plan import Plan, Style, is_straight, make_plan
from outside.solving import SolverFault, solver_path
from outside.spacer import (
    WITHOUT_EQUALITIES,
    WITHOUT_INLINING,
    Reached,
    Stalled,
    filled_invariants,
    spacer_invariants,
)

# The share of the time that a proof of found invariants has.
PROOF = 0.4

Note = Callable[[str], None]
PlanOf = Callable[[Style], Plan]


@dataclass(frozen=True)
class Spacer:
    """Asks Spacer for a model of the clauses in a style."""

    style: Style
    options: tuple[str, ...]

    def invariants(self, plan: PlanOf, deadline: float) -> Invariants:
        """What Spacer finds."""
        return spacer_invariants(plan(self.style), self.options, deadline)

    def name(self) -> str:
        """The way in notes."""
        return f"Spacer, joins {self.style.joins}, {' '.join(self.options) or 'no options'}"


@dataclass(frozen=True)
class Guesses:
    """Keeps those of many candidates that are invariants at heads of loops.

    Spacer finds those of callees and their calls then quickly; without them a proof is longer.
    """

    style: Style
    wide: bool

    def invariants(self, plan: PlanOf, deadline: float) -> Invariants:
        """What is left of the candidates, and what follows from it."""
        inlined = plan(replace(self.style, inlined=True))
        kept = kept_candidates(inlined, self.wide, deadline)
        try:
            later = now() + max(1.0, deadline - now())
            return filled_invariants(plan(self.style), kept, later)
        except GaveUp:
            return invariants_of(inlined, kept)

    def name(self) -> str:
        """The way in notes."""
        return "many candidates" if self.wide else "candidates"


@dataclass(frozen=True)
class Nothing:
    """No invariants: enough where no loop and no recursion is reached."""

    style: Style

    def invariants(self, plan: PlanOf, deadline: float) -> Invariants:
        """No invariants."""
        return Invariants()

    def name(self) -> str:
        """The way in notes."""
        return "no invariants"


Way = Spacer | Guesses | Nothing

# A way, and its share of the time.
Turn = tuple[Way, float]

OTHER_INTERPOLANTS = (*WITHOUT_EQUALITIES, "fp.spacer.iuc=0")


def turns(ranges: bool, picks: bool, straight: bool) -> list[Turn]:
    """The ways in the order in which they are tried, over all integers or with ranges.

    A way that needs what isn't there is left out: picks, or loops or recursion for candidates.
    """
    joins, heads, picked = Style(ranges, 1), Style(ranges, 0), Style(ranges, 2)
    found: list[Turn] = [
        (Nothing(heads), 0.0 if ranges else 0.2),
        (Spacer(joins, WITHOUT_EQUALITIES), 0.12),
        (Spacer(heads, WITHOUT_EQUALITIES), 0.1),
        (Spacer(picked, WITHOUT_EQUALITIES), 0.1),
        (Guesses(heads, False), 0.25),
        (Spacer(joins, OTHER_INTERPOLANTS), 0.05),
        (Guesses(heads, True), 0.3),
        (Spacer(joins, WITHOUT_INLINING), 0.1),
        (Spacer(heads, WITHOUT_EQUALITIES), 1.0),
    ]
    left_out = Guesses if straight else Nothing
    return [
        (way, share)
        for way, share in found
        if share and not isinstance(way, left_out) and (picks or way.style != picked)
    ]


class Search:
    """Tries ways, and keeps what is known of them."""

    def __init__(self, graphs: Graphs, assertion: int, seconds: float, note: Note) -> None:
        self.graphs = graphs
        self.assertion = assertion
        self.seconds = seconds
        self.deadline = now() + seconds
        self.note = note
        self.plans: dict[Style, Plan] = {}
        self.only_with_ranges = False
        self.reason = "out of time"

    def left(self) -> float:
        """The seconds that are left."""
        return self.deadline - now()

    def plan(self, style: Style) -> Plan:
        """The plan of a style, made once."""
        if style not in self.plans:
            self.plans[style] = make_plan(self.graphs, self.assertion, style)
        return self.plans[style]

    def bundle(self) -> Bundle:
        """A bundle, or a `GaveUp`; `Reached` where z3 says that the assertion can fail."""
        try:
            solver_path()
        except SolverFault as fault:
            raise GaveUp(str(fault)) from None
        for way, share in self.chosen():
            bundle = self.attempt(way, share * self.seconds)
            if bundle:
                return bundle
        raise GaveUp(self.reason)

    def chosen(self) -> Iterator[Turn]:
        """The ways that can still lead to a proof, while there is time."""
        picks = any(isinstance(e, Pick) for g in self.graphs.graphs for e in g.edges)
        straight = is_straight(self.graphs)
        for ranges in (False, True):
            for turn in turns(ranges, picks, straight):
                if self.left() <= 0:
                    return
                if ranges or not self.only_with_ranges:
                    yield turn

    def attempt(self, way: Way, seconds: float) -> Bundle | None:
        """A bundle by a way."""
        begun = now()
        try:
            deadline = min(self.deadline, begun + seconds)
            invariants = way.invariants(self.plan, deadline)
            self.note(f"{way.name()}: invariants in {now() - begun:.1f} s")
            given = seconds if isinstance(way, Nothing) else PROOF * self.seconds
            return prove(self.graphs, self.assertion, invariants, min(self.deadline, now() + given))
        except Reached as why:
            if way.style.ranges:
                raise
            self.only_with_ranges = True
            self.note(f"{way.name()}: {why}, over all integers")
        except Stalled as why:
            self.note(f"{way.name()}: {why}")
        except GaveUp as why:
            self.reason = why.reason
            self.note(f"{way.name()}: {why}")
        except TooWide as why:
            self.reason = f"a row is too wide: {why}"
            self.note(f"{way.name()}: {self.reason}")
        return None


def find_bundle(graphs: Graphs, assertion: int, seconds: float, note: Note) -> Bundle:
    """A bundle for an assertion, counted from 0, within so many seconds."""
    return Search(graphs, assertion, seconds, note).bundle()
