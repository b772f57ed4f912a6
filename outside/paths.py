"""Paths as rows: what holds along steps from a state, by the terms of slots at each place."""

from collections.abc import Iterator, Sequence
from dataclasses import dataclass, field

from outside.certificates import used_rows
from outside.graphs import Assert, Assign, Call, Edge, Entry, Graph, Graphs, Guard
from outside.graphs import Input, Pick, Return
from outside.invariants import GaveUp
from outside.linear import (
    FIRST_ASKED,
    FIRST_EXIT,
    FIRST_SYMBOL,
    Atom,
    Term,
    column_term,
    constant_term,
    equality,
    replaced,
)
from outside.preimage import entry_term, range_of
from outside.solver import SolverLimit, solve

MAX_PREFIXES = 4000


@dataclass
class State:
    """The terms of slots, and the rows that hold so far; slots without a term are as at first."""

    terms: dict[int, Term] = field(default_factory=dict)
    rows: list[Atom] = field(default_factory=list)
    symbols: int = 0

    def read(self, atoms: Sequence[Atom]) -> list[Atom]:
        """The atoms with the terms in the places of slots."""
        return [replaced(atom, self.terms) for atom in atoms]

    def copy(self) -> "State":
        """A state of its own."""
        return State(dict(self.terms), list(self.rows), self.symbols)

    def symbol(self) -> Term:
        """A new symbol."""
        self.symbols += 1
        if FIRST_SYMBOL + self.symbols > FIRST_ASKED:
            raise GaveUp("too many symbols along a path")
        return column_term(FIRST_SYMBOL + self.symbols - 1)


def stepped(before: State, edge: Edge, slots: int) -> State:
    """The state behind an edge that is no call."""
    state = before.copy()
    match edge:
        case Entry():
            by = entry_term(edge.params)
            state.terms.update((x, by(x) or column_term(x)) for x in range(slots))
        case Assign():
            value = state.read([edge.value()])[0]
            state.terms[edge.slot] = value
            state.rows.extend(range_of(value))
        case Guard() | Assert():
            state.rows.extend(state.read(edge.rows))
        case Input() | Pick():
            state.terms[edge.slot] = state.symbol()
            if isinstance(edge, Pick):
                state.rows.extend(state.read(edge.rows))
        case Return():
            exits = state.read([column_term(x) for x in edge.slots])
            state.terms.update((FIRST_EXIT + i, value) for i, value in enumerate(exits))
        case Call():
            raise ValueError("a call is no step of its own")
    return state


class Runs:
    """The runs of procedures without loops and recursion, by their paths."""

    def __init__(self, graphs: Graphs, assertion: int) -> None:
        self.graphs = graphs
        self.assertion = assertion
        self.prefixes = 0

    def ends(
        self, procedure: int, arguments: Sequence[Term], before: State, returns: bool
    ) -> Iterator[tuple[State, list[Term]]]:
        """The states in which runs return, with their exit values, or in which they fail.

        The slots of the states are the caller's.
        """
        graph = self.graphs.graphs[procedure]
        own = State({}, before.rows, before.symbols)
        for slot in range(graph.slots):
            entry = slot < graph.params
            own.terms[slot] = arguments[slot] if entry else constant_term(0)
        for state in self._from(graph, graph.first_node(), own, returns):
            exits = [state.terms[FIRST_EXIT + i] for i in range(graph.exits)] if returns else []
            yield State(dict(before.terms), state.rows, state.symbols), exits

    def _from(self, graph: Graph, node: int, state: State, returns: bool) -> Iterator[State]:
        """The states in which runs from a node end."""
        self.prefixes += 1
        if self.prefixes > MAX_PREFIXES:
            raise GaveUp("too many paths through a procedure")
        if node == (graph.exit if returns else graph.fail):
            yield state
            return
        for edge in graph.edges:
            if edge.source == node and self._leads_on(edge, returns):
                for behind, following in self._over(graph, edge, state, returns):
                    yield from self._from(graph, following, behind, returns)

    def _leads_on(self, edge: Edge, returns: bool) -> bool:
        """Whether runs of this kind go over the edge."""
        return not isinstance(edge, Assert) or (not returns and edge.assertion == self.assertion)

    def _over(
        self, graph: Graph, edge: Edge, state: State, returns: bool
    ) -> Iterator[tuple[State, int]]:
        """The states behind an edge, and their node."""
        if not isinstance(edge, Call):
            behind = stepped(state, edge, graph.slots)
            if len(behind.rows) == len(state.rows) or self.is_possible(behind.rows):
                yield behind, edge.target
            return
        arguments = state.read([column_term(x) for x in edge.arguments])
        if not returns:
            for behind, _ in self.ends(edge.procedure, arguments, state, False):
                yield behind, graph.fail
        for behind, exits in self.ends(edge.procedure, arguments, state, True):
            behind.terms.update(zip(edge.results, exits, strict=True))
            yield behind, edge.target

    def is_possible(self, rows: Sequence[Atom]) -> bool:
        """Whether the path is followed; all are."""
        return True


class Meeting(Runs):
    """The search for a run that meets rows; where there is none, the rows that tell so."""

    def __init__(self, graphs: Graphs, assertion: int, rows: Sequence[Atom]) -> None:
        super().__init__(graphs, assertion)
        self.given = list(rows)
        self.core: set[int] = set()
        self.point: dict[int, int] = {}

    def is_possible(self, rows: Sequence[Atom]) -> bool:
        """Whether the rows of the path can be met together with those that are given."""
        try:
            outcome = solve([*self.given, *rows])
        except SolverLimit as limit:
            raise GaveUp(f"the solver's limit: {limit}") from limit
        if isinstance(outcome, dict):
            self.point = outcome
            return True
        self.core |= {number for number in used_rows(outcome) if number < len(self.given)}
        return False

    def run(
        self, procedure: int, arguments: Sequence[Term], returns: bool
    ) -> dict[int, int] | set[int]:
        """A point of a run that meets the rows, or the rows that no run meets."""
        for state, exits in self.ends(procedure, arguments, State(), returns):
            rows = [*state.rows, *exit_rows(exits)]
            if self.is_possible(rows):
                return self.point
        return self.core


def exit_rows(exits: Sequence[Term]) -> list[Atom]:
    """The rows that make the exit columns equal to these terms."""
    rows = []
    for place, value in enumerate(exits):
        rows.extend(equality(column_term(FIRST_EXIT + place), value))
    return rows
