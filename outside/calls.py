"""Edges of calls: what a call asks is answered by a claim of the callee.

Where the asked query entails the negation of one clause of the callee's summary, that is claimed,
so that claims are few. Where it contradicts several clauses together, the rows that do are claimed.
"""

from collections.abc import Iterator, Sequence
from dataclasses import dataclass
from typing import TYPE_CHECKING

from outside.cases import Cases
from outside.certificates import Certificate
from outside.graphs import Call
from outside.invariants import GaveUp, violated_clauses
from outside.linear import (
    FIRST_ENTRY,
    FIRST_EXIT,
    FIRST_SYMBOL,
    Atom,
    Clause,
    Point,
    column_term,
    columns_of,
    combination,
    constant_term,
    equality,
    holds,
    negated,
    renamed,
    replaced,
    substituted,
)
from outside.partition import RegionEdge
from outside.paths import Meeting, State, exit_rows
from outside.preimage import after_column, asked, result_columns
from outside.work import Work, ask, entails

if TYPE_CHECKING:
    from outside.claims import Prover

NEVER = constant_term(1)
MAX_CASES = 2000


@dataclass
class _Site:
    """An edge of a call between two regions, and the rows on both sides of it."""

    work: Work
    edge: RegionEdge
    call: Call
    returns: bool
    joint: list[Atom]

    def asked(self) -> list[Atom]:
        """The rows of the query that the call asks."""
        source, target = self.work.atoms(self.edge.source), self.work.atoms(self.edge.target)
        return asked(self.call, self.returns, source, target)

    def at_source(self, atom: Atom) -> Atom:
        """An atom of the callee with arguments in the places of entry values."""
        names = {FIRST_ENTRY + i: slot for i, slot in enumerate(self.call.arguments)}
        return renamed(atom, names)

    def clause_at_source(self, clause: Clause) -> Clause:
        """A clause of the callee in the same way."""
        return tuple(self.at_source(atom) for atom in clause)


def _site(work: Work, edge: RegionEdge) -> _Site:
    """The edge of a call with the rows on both sides."""
    call = work.graph.edges[edge.edge]
    assert isinstance(call, Call)
    returns = work.node(edge.target) != work.graph.fail
    source, target = work.atoms(edge.source), work.atoms(edge.target)
    behind = result_columns(call) if returns else {}
    joint = [*source, *(renamed(atom, behind) for atom in target)]
    return _Site(work, edge, call, returns, joint)


def without(atoms: Sequence[Atom], columns: Sequence[int]) -> list[Atom]:
    """What the atoms say of the other columns."""
    rows = list(atoms)
    for column in columns:
        rows = with_equality(rows, column) or after_column(rows, column)
    return [row for row in rows if row.parts]


def with_equality(rows: Sequence[Atom], column: int) -> list[Atom] | None:
    """The rows with an equality in the column's place, if they have one with the coefficient 1."""
    for row in rows:
        if row.coefficient(column) == 1:
            opposite = combination([(-1, row)])
            if opposite in rows:
                value = combination([(1, column_term(column)), (-1, row)])
                left = [substituted(r, lambda x: value if x == column else None) for r in rows]
                return list(dict.fromkeys(r for r in left if r.parts or r.constant > 0))
    return None


def meet(atoms: Sequence[Atom], clauses: Sequence[Clause]) -> dict[int, int] | set[int]:
    """A point that meets the atoms and the clauses, or the atoms that tell that there is none."""
    return Cases(atoms, clauses, MAX_CASES).search()


class CallEdges:
    """Closes edges of calls for a prover."""

    def __init__(self, prover: "Prover") -> None:
        self.prover = prover

    def kill(self, work: Work, edge: RegionEdge) -> Point | None:
        """Kills the edge by a claim, or gives a point of a call that the summary allows."""
        site = _site(work, edge)
        clauses = self.prover.clauses(site.call.procedure, site.returns)
        outcome = self.meet_joint(site, clauses)
        if isinstance(outcome, dict):
            return outcome
        have = site.asked()
        point = ask(have)
        if not isinstance(point, dict):
            self.claim(site, have, [NEVER])
        elif not self.kill_by_clause(site, have, violated_clauses(clauses or [], point)):
            core = self.meet_asked(site, have, clauses)
            if isinstance(core, dict):
                raise GaveUp("a call that can't be made asks something that can be met")
            self.claim(site, have, [have[number] for number in sorted(core)])
        return None

    def meet_joint(self, site: _Site, clauses: list[Clause] | None) -> dict[int, int] | set[int]:
        """A point of a call from the source into the target that the callee allows, or no point."""
        if clauses is not None:
            return meet(site.joint, [site.clause_at_source(clause) for clause in clauses])
        arguments = [column_term(slot) for slot in site.call.arguments]
        meeting = Meeting(self.prover.graphs, self.prover.assertion, site.joint)
        return meeting.run(site.call.procedure, arguments, site.returns)

    def meet_asked(
        self, site: _Site, have: Sequence[Atom], clauses: list[Clause] | None
    ) -> dict[int, int] | set[int]:
        """A point of a run of the callee that is asked for, or the rows that no run meets."""
        if clauses is not None:
            return meet(have, clauses)
        entries = [column_term(FIRST_ENTRY + i) for i in range(len(site.call.arguments))]
        meeting = Meeting(self.prover.graphs, self.prover.assertion, have)
        return meeting.run(site.call.procedure, entries, site.returns)

    def kill_by_clause(
        self, site: _Site, have: Sequence[Atom], clauses: Sequence[Clause]
    ) -> bool:
        """Kills the edge where the asked query entails the negation of one clause."""
        for clause in clauses:
            cube = [negated(atom) for atom in clause]
            if all(entails(have, atom) for atom in cube):
                self.claim(site, have, cube)
                return True
        return False

    def claim(self, site: _Site, have: Sequence[Atom], cube: Sequence[Atom]) -> None:
        """Kills the edge by the claim that the callee has no run that meets the cube."""
        number = self.prover.claim(site.call.procedure, site.returns, cube)
        query = self.prover.queries[number]
        proofs: list[Certificate] = []
        for atom in (*query.start, *query.end):
            if atom not in have:
                proof = ask([*have, negated(atom)])
                if isinstance(proof, dict):
                    raise GaveUp("a claim that the asked query doesn't entail")
                proofs.append(proof)
        site.work.kill_call(site.edge, number, proofs)

    def before(self, work: Work, edge: RegionEdge, point: Point) -> Iterator[list[Atom]]:
        """The states from which the callee's summary allows a step to the target as at the point.

        The second cube has those alone from which the same values come in as at the point.
        """
        site = _site(work, edge)
        clauses = self.prover.clauses(site.call.procedure, site.returns)
        target = site.joint[len(work.atoms(edge.source)) :]
        if clauses is not None:
            yield _without_results([*target, *self.chosen(site, clauses, point)])
            return
        rows, values = self.run_at(site, point)
        yield _without_results([*target, *rows])
        fixed = {x: constant_term(n) for x, n in values.items() if x >= FIRST_SYMBOL}
        yield _without_results([replaced(row, fixed) for row in (*target, *rows)])

    def chosen(self, site: _Site, clauses: Sequence[Clause], point: Point) -> list[Atom]:
        """For each clause an atom that holds at the point, if none holds anyway."""
        rows = list(site.joint)
        for clause in clauses:
            met = [a for atom in clause if holds(a := site.at_source(atom), point)]
            if not any(entails(rows, atom) for atom in met):
                rows.append(min(met, key=lambda a: sum(x >= FIRST_EXIT for x in a.columns())))
        return rows[len(site.joint) :]

    def run_at(self, site: _Site, point: Point) -> tuple[list[Atom], Point]:
        """The rows of a run of the callee from the point's source into the target, and values."""
        arguments = [column_term(slot) for slot in site.call.arguments]
        here = [
            row
            for slot in site.call.arguments
            for row in equality(column_term(slot), constant_term(point.get(slot, 0)))
        ]
        meeting = Meeting(self.prover.graphs, self.prover.assertion, [*site.joint, *here])
        procedure = site.call.procedure
        for state, exits in meeting.ends(procedure, arguments, State(), site.returns):
            rows = [*state.rows, *exit_rows(exits)]
            if meeting.is_possible(rows):
                return rows, meeting.point
        raise GaveUp("no run of a call at its point")


def _without_results(rows: Sequence[Atom]) -> list[Atom]:
    """What the rows say of the columns before a call."""
    return without(rows, [x for x in columns_of(rows) if x >= FIRST_EXIT])
