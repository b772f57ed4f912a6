"""Cuts: where a preimage is larger than the truth, a region is split so that it isn't.

The preimage over an edge that picks a value holds of all states that have a real number for it. So
a path of bad regions may seem to be open at a point where no integers go along it. The certificate
that none do has steps that hold of integers alone. The first of these is a cut: the region behind
the picked value is split by it, and what was made bad by the larger preimage is good again.
"""

from collections.abc import Iterator, Sequence
from dataclasses import dataclass
from fractions import Fraction
from math import gcd

from outside.certificates import Branch, Certificate, at_least, at_most, base_rows
from outside.clock import now
from outside.graphs import Call
from outside.invariants import Invariants
from outside.linear import (
    FIRST_ASKED,
    FIRST_ENTRY,
    FIRST_EXIT,
    FIRST_SYMBOL,
    Atom,
    Parts,
    Point,
    Term,
    columns_of,
    combination,
    divisor_of,
    negated,
    substituted,
    term_of,
)
from outside.partition import RegionEdge
from outside.paths import State, stepped
from outside.solver import SolverLimit, solve
from outside.work import Work

MAX_CUTS = 3000
MAX_STEPS = 400
MAX_SHADOW = 200
MAX_SIZE = 2**400


@dataclass
class _Path:
    """Region edges, and the state behind each; slots without a term are those before the path."""

    edges: list[RegionEdge]
    states: list[State]

    def rows(self) -> list[Atom]:
        """What holds along the path."""
        return self.states[-1].rows


def _may_hold(rows: Sequence[Atom], point: Point) -> bool:
    """Whether rationals for the symbols meet the rows at the point; too many rows may."""
    left = []
    for row in rows:
        parts = {x: a for x, a in row.parts if FIRST_SYMBOL <= x < FIRST_ASKED}
        rest = sum(a * point.get(x, 0) for x, a in row.parts if x not in parts)
        left.append(term_of(parts, row.constant + rest))
    left = _strongest(left)
    for symbol in columns_of(left):
        upper = [row for row in left if row.coefficient(symbol) > 0]
        lower = [row for row in left if row.coefficient(symbol) < 0]
        kept = [row for row in left if row.coefficient(symbol) == 0]
        for high in upper:
            for low in lower:
                times = (-low.coefficient(symbol), high), (high.coefficient(symbol), low)
                kept.append(combination(times))
        left = _strongest(kept)
        if len(left) > MAX_SHADOW or any(abs(row.constant) > MAX_SIZE for row in left):
            return True
    return all(row.constant <= 0 for row in left)


def _strongest(rows: Sequence[Atom]) -> list[Atom]:
    """Of rows with the same multiples of columns the strongest, over the rationals."""
    kept: dict[Parts, tuple[Fraction, Atom]] = {}
    for row in rows:
        divisor = divisor_of(row) or 1
        parts = tuple((x, a // divisor) for x, a in row.parts)
        constant = Fraction(row.constant, divisor)
        if parts not in kept or kept[parts][0] < constant:
            common = gcd(divisor, row.constant)
            scaled = tuple((x, a // common) for x, a in row.parts)
            kept[parts] = (constant, Term(scaled, row.constant // common))
    return [row for _, row in kept.values()]


def cuts_of(atoms: Sequence[Atom], certificate: Certificate) -> Iterator[Atom]:
    """What the certificate derives that holds of integers alone, in order; branches too."""
    yield from _cuts(base_rows(atoms), certificate)


def _cuts(rows: list[Atom], certificate: Certificate) -> Iterator[Atom]:
    """The cuts below a node of the certificate whose rows so far are these."""
    rows = list(rows)
    for step in certificate.derived:
        rows.append(step.row)
        total = sum(times * rows[number].constant for number, times in step.parts)
        if total % step.divide:
            yield step.row
    if isinstance(certificate, Branch):
        low = at_most(certificate.column, certificate.at)
        high = at_least(certificate.column, certificate.at + 1)
        yield low
        yield from _cuts([*rows, low], certificate.low)
        yield from _cuts([*rows, high], certificate.high)


def _inverse(terms: dict[int, Term]) -> dict[int, Term]:
    """For each column that a slot's term is, up to a sign and a constant, the term of slots."""
    found: dict[int, Term] = {}
    for slot, term in terms.items():
        if len(term.parts) == 1 and abs(term.parts[0][1]) == 1 and slot < FIRST_ENTRY:
            column, sign = term.parts[0]
            made = term_of({slot: sign}, -sign * term.constant)
            if column not in found or len(made.parts) + abs(made.constant) < 2:
                found[column] = made
    return found


def _at_region(atom: Atom, terms: dict[int, Term], from_outside: bool) -> Atom | None:
    """The atom over the columns of a region of the path, if they tell it."""
    by = _inverse(terms)
    for column, _ in atom.parts:
        if FIRST_ENTRY <= column < FIRST_EXIT:
            by.pop(column, None)
        elif column < FIRST_ENTRY and column not in terms and not from_outside:
            by.pop(column, None)
        elif column not in by:
            return None
    return substituted(atom, by.get)


class Cuts:
    """The cuts of one claim."""

    def __init__(self, work: Work, invariants: Invariants, deadline: float) -> None:
        self.work = work
        self.invariants = invariants
        self.deadline = deadline
        self.count = 0
        self.steps = 0

    def refine(self, edge: RegionEdge, point: Point) -> bool:
        """Splits a region on a path from the edge's source that is open at this point alone."""
        node = self.work.node(edge.source)
        start = list(self.work.atoms(edge.source))
        start += self.invariants.around(self.work.query.procedure, node, point)
        self.count += 1
        self.steps = 0
        found = self.paths(_Path([], [State(rows=start)]), edge, point)
        return self.count <= MAX_CUTS and any(self.cut(path) for path in found)

    def refine_step(self, edge: RegionEdge) -> bool:
        """The same of the edge alone."""
        self.count += 1
        path = _Path([], [State(rows=list(self.work.atoms(edge.source)))])
        return self.count <= MAX_CUTS and self.cut(self.stepped(path, edge))

    def stepped(self, path: _Path, edge: RegionEdge) -> _Path:
        """The path into the region behind the edge."""
        work = self.work
        state = stepped(path.states[-1], work.graph.edges[edge.edge], work.graph.slots)
        state.rows.extend(state.read(work.atoms(edge.target)))
        return _Path([*path.edges, edge], [*path.states, state])

    def paths(self, path: _Path, edge: RegionEdge, point: Point) -> Iterator[_Path]:
        """The paths over this edge to an end that the point may take."""
        work = self.work
        self.steps += 1
        too_long = self.steps > MAX_STEPS or now() > self.deadline
        if too_long or isinstance(work.graph.edges[edge.edge], Call):
            return
        longer = self.stepped(path, edge)
        if not _may_hold(longer.rows(), point):
            return
        if not work.is_soft(edge.target):
            yield longer
            return
        for following in list(work.partition.out[edge.target]):
            if work.bad[following.target]:
                yield from self.paths(longer, following, point)

    def cut(self, path: _Path) -> bool:
        """Splits a region of the path by a cut, if its rows are refuted and a region tells one."""
        try:
            certificate = solve(path.rows())
        except SolverLimit:
            return False
        if isinstance(certificate, dict):
            return False
        for atom in cuts_of(path.rows(), certificate):
            for place, edge in enumerate(path.edges):
                if self.split(path, place, atom):
                    return True
        return False

    def split(self, path: _Path, place: int, atom: Atom) -> bool:
        """Splits the region behind this edge of the path by the atom, if it names its columns."""
        work = self.work
        region = path.edges[place].target
        if work.node(region) in (work.graph.exit, work.graph.fail):
            return False
        made = _at_region(atom, path.states[place + 1].terms, path.edges[0].source == 0)
        known = work.atoms(region)
        if made is None or not made.parts or made in known or negated(made) in known:
            return False
        work.retract([edge.source for edge in work.partition.into[region]])
        work.part(region, [made])
        return True
