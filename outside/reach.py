"""Why a cube at a node can't be reached: the atoms that refute all paths from invariants to it.

A path is followed backwards from the node, with the cube's rows read before each edge. What a step
brings in is a symbol. It ends at a node with an invariant, at the entry, or where its rows are
refuted. The atoms of the cube that the refutations use are enough on all paths.
"""

from collections.abc import Iterator, Sequence
from dataclasses import dataclass
from typing import TYPE_CHECKING

from outside.cases import Cases, TooManyCases
from outside.clock import now
from outside.graphs import Assert, Assign, Call, Edge, Entry, Graph, Guard, Input, Pick, Return
from outside.invariants import GaveUp
from outside.linear import (
    FIRST_ENTRY,
    FIRST_EXIT,
    FIRST_SYMBOL,
    Atom,
    Clause,
    Term,
    column_term,
    replaced,
)
from outside.paths import Runs, State
from outside.preimage import entry_term, range_of

if TYPE_CHECKING:
    from outside.claims import Prover

MAX_PATHS = 150


class Reached(Exception):
    """The cube can be reached, as far as the invariants tell, or it takes too long to see."""


@dataclass(frozen=True)
class _Before:
    """Rows before some edge; the first ones are the cube's. Clauses hold beside them."""

    rows: tuple[Atom, ...]
    clauses: tuple[Clause, ...]
    symbols: int

    def replaced(
        self, by: dict[int, Term], rows: Sequence[Atom] = (), symbols: int = 0
    ) -> "_Before":
        """The rows with terms in the places of columns, and further rows."""
        read = tuple(replaced(row, by) for row in self.rows)
        clauses = tuple(tuple(replaced(a, by) for a in c) for c in self.clauses)
        return _Before((*read, *rows), clauses, self.symbols + symbols)


class Reach:
    """The paths to the nodes of one procedure."""

    def __init__(self, prover: "Prover", procedure: int, start: Sequence[Atom]) -> None:
        self.prover = prover
        self.procedure = procedure
        self.start = tuple(start)
        self.graph: Graph = prover.graphs.graphs[procedure]
        self.into: dict[int, list[Edge]] = {}
        for edge in self.graph.edges:
            self.into.setdefault(edge.target, []).append(edge)
        self.hard = prover.invariants.nodes(procedure)

    def needed(self, node: int, atoms: Sequence[Atom]) -> set[int]:
        """Which of the atoms are enough for the node not to be reached; raises `Reached`."""
        self.given = len(atoms)
        self.paths = 0
        self.core: set[int] = set()
        self.follow(node, _Before(tuple(atoms), (), 0))
        return self.core

    def follow(self, node: int, here: _Before) -> None:
        """Refutes all paths that come to the node with these rows."""
        for edge in self.into.get(node, ()):
            for before in self.steps(edge, here):
                self.paths += 1
                if self.paths > MAX_PATHS or now() > self.prover.deadline:
                    raise Reached
                source = edge.source
                ends = source is None or source in self.hard
                forks = ends or len(self.into.get(source, ())) > 1
                if forks and self.is_refuted(source, before, ends):
                    continue
                if ends or source is None:
                    raise Reached
                self.follow(source, before)

    def is_refuted(self, node: int | None, before: _Before, ends: bool) -> bool:
        """Whether the rows are refuted, at the end with the invariant; notes the atoms used."""
        clauses = list(before.clauses)
        if ends and node is not None:
            clauses += self.prover.invariants.node.get((self.procedure, node), [])
        rows = before.rows if node is not None else (*before.rows, *self.start)
        try:
            outcome = Cases(rows, clauses if ends else [], 60).search()
        except (GaveUp, TooManyCases):
            raise Reached from None
        if isinstance(outcome, dict):
            return False
        self.core |= {number for number in outcome if number < self.given}
        return True

    def steps(self, edge: Edge, here: _Before) -> Iterator[_Before]:
        """The rows before the edge; a call may have several."""
        symbol = column_term(FIRST_SYMBOL + here.symbols)
        match edge:
            case Entry():
                by = entry_term(edge.params)
                yield here.replaced({x: by(x) or column_term(x) for x in range(self.graph.slots)})
            case Assign():
                ranges = range_of(edge.value()) if self.prover.with_ranges else ()
                yield here.replaced({edge.slot: edge.value()}, ranges)
            case Guard() | Assert():
                yield here.replaced({}, edge.rows)
            case Input():
                yield here.replaced({edge.slot: symbol}, (), 1)
            case Pick():
                rows = [replaced(r, {edge.slot: symbol}) for r in edge.rows]
                yield here.replaced({edge.slot: symbol}, rows, 1)
            case Return():
                exits = {FIRST_EXIT + i: column_term(x) for i, x in enumerate(edge.slots)}
                yield here.replaced(exits)
            case Call():
                yield from self.call_steps(edge, here)

    def call_steps(self, call: Call, here: _Before) -> Iterator[_Before]:
        """The rows before a call that returns."""
        arguments = [column_term(slot) for slot in call.arguments]
        clauses = self.prover.clauses(call.procedure, True)
        if clauses is None:
            runs = Runs(self.prover.graphs, self.prover.assertion)
            state = State({}, [], here.symbols)
            for end, exits in runs.ends(call.procedure, arguments, state, True):
                by = dict(zip(call.results, exits, strict=True))
                yield here.replaced(by, end.rows, end.symbols - here.symbols)
            return
        values = [column_term(FIRST_SYMBOL + here.symbols + i) for i in range(len(call.results))]
        before = here.replaced(dict(zip(call.results, values, strict=True)), (), len(values))
        names = {FIRST_ENTRY + i: term for i, term in enumerate(arguments)}
        names |= {FIRST_EXIT + i: term for i, term in enumerate(values)}
        known = tuple(tuple(replaced(a, names) for a in c) for c in clauses)
        yield _Before(before.rows, (*before.clauses, *known), before.symbols)
