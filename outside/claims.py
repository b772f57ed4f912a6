"""Claims and their moves, made of invariants.

In a claim the region at the end of its query is bad. While a live edge leads from a good region to
a bad one, it is killed by a certificate, or the part of the source that the bad region asks for
becomes bad: where a clause of the source's invariant is violated, the part where its negation
holds, and else the preimage. At a call the violated clause of the callee becomes a claim.
"""

from collections import deque
from collections.abc import Iterable, Sequence

from outside.clock import now
from outside.bundle import Bundle, Claim
from outside.calls import CallEdges
from outside.cuts import Cuts
from outside.graphs import Call, Graphs, Input, Pick
from outside.invariants import GaveUp, Invariants
from outside.linear import Atom, Clause, Point, TooWide, negated
from outside.partition import Query, RegionEdge
from outside.plan import failing_procedures, straight_procedures
from outside.preimage import free_preimage, names_exit, preimage
from outside.reach import Reach, Reached
from outside.work import Work, ask

MAX_MOVES = 200_000


class NotInductive(GaveUp):
    """The invariants don't tell why a step isn't possible."""


class Prover:
    """The claims of one bundle."""

    def __init__(
        self,
        graphs: Graphs,
        assertion: int,
        invariants: Invariants,
        deadline: float,
        with_ranges: bool,
    ) -> None:
        self.graphs = graphs
        self.assertion = assertion
        self.invariants = invariants
        self.deadline = deadline
        self.with_ranges = with_ranges
        self.failing = failing_procedures(graphs, assertion)
        self.straight = straight_procedures(graphs)
        self.queries: list[Query] = []
        self.numbers: dict[Query, int] = {}
        self.waiting: deque[int] = deque()
        self.calls = CallEdges(self)

    def claim_of(self, query: Query) -> int:
        """The number of the claim with this query, which is made if there is none."""
        if query not in self.numbers:
            self.numbers[query] = len(self.queries)
            self.waiting.append(len(self.queries))
            self.queries.append(query)
        return self.numbers[query]

    def claim(self, procedure: int, returns: bool, cube: Sequence[Atom]) -> int:
        """The claim that no run of the procedure meets the cube."""
        start = tuple(atom for atom in cube if not names_exit(atom))
        fails_at = None if returns else self.assertion
        return self.claim_of(Query(procedure, fails_at, start, tuple(cube)))

    def clauses(self, procedure: int, returns: bool) -> list[Clause] | None:
        """What is known of runs that return, or fail; `None` where paths tell it."""
        if not returns and procedure not in self.failing:
            return [()]
        known = self.invariants.summary if returns else self.invariants.failure
        if procedure in self.straight and not known.get(procedure):
            return None
        return known.get(procedure, [])

    def prove(self) -> Bundle:
        """The bundle with all claims."""
        self.claim_of(Query(self.graphs.main, self.assertion, (), ()))
        claims: dict[int, Claim] = {}
        while self.waiting:
            number = self.waiting.popleft()
            claims[number] = self.proved(self.queries[number])
        return Bundle(self.assertion, tuple(claims[n] for n in range(len(claims))))

    def proved(self, query: Query) -> Claim:
        """The claim of a query with its moves."""
        graph = self.graphs.graphs[query.procedure]
        hard = self.invariants.nodes(query.procedure) | {graph.exit, graph.fail}
        work = Work(graph, query, lambda node: node not in hard)
        self.cuts = Cuts(work, self.invariants, self.deadline)
        self.reach = Reach(self, query.procedure, query.start)
        if not self.closed_at_entry(work):
            self.close_all(work)
        return Claim(query, tuple(work.moves))

    def close_all(self, work: Work) -> None:
        """Goes on until no live edge leads from a good region to a bad one.

        First edges are killed, and only then regions split, so that fewer pieces are looked at.
        """
        while True:
            if now() > self.deadline:
                raise GaveUp("out of time in the proof")
            if len(work.moves) > MAX_MOVES:
                raise GaveUp(f"more than {MAX_MOVES} moves")
            edge = work.next_waiting()
            if edge is not None:
                is_call = isinstance(work.graph.edges[edge.edge], Call)
                kill = self.calls.kill if is_call else self.kill
                point = kill(work, edge)
                if point is not None:
                    work.opened(edge, point)
                continue
            found = work.next_open()
            if found is None:
                return
            self.spoil(work, *found)

    def closed_at_entry(self, work: Work) -> bool:
        """Kills the entry edge where nothing meets the start."""
        if not work.query.start:
            return False
        edge = RegionEdge(0, 0, work.graph.first_node() + 1)
        outcome = ask(preimage(work.graph.edges[0], work.query.start))
        if isinstance(outcome, dict):
            return False
        work.kill(edge, outcome)
        return True

    def kill(self, work: Work, edge: RegionEdge) -> Point | None:
        """Kills an edge that is no call, or gives a point that goes over it."""
        rows = preimage(work.graph.edges[edge.edge], work.atoms(edge.target))
        outcome = ask([*work.atoms(edge.source), *rows])
        if isinstance(outcome, dict):
            return outcome
        work.kill(edge, outcome)
        return None

    def spoil(self, work: Work, edge: RegionEdge, point: Point) -> None:
        """Makes a part of the source bad, or splits a region by a cut."""
        graph_edge = work.graph.edges[edge.edge]
        procedure, node = work.query.procedure, work.node(edge.source)
        violated = None
        if edge.source != 0:
            violated = self.invariants.violated(procedure, node, point)
        if violated is not None:
            work.spoil(edge.source, [negated(atom) for atom in violated])
        elif not work.is_soft(edge.source):
            if isinstance(graph_edge, Call) or not self.cuts.refine(edge, point):
                raise NotInductive(f"the invariants aren't kept from node {node}")
        elif isinstance(graph_edge, Call):
            work.spoil(edge.source, self.general(work, edge, self.calls.before(work, edge, point)))
        elif not (isinstance(graph_edge, Pick) and self.cuts.refine_step(edge)):
            self.spoil_before(work, edge)

    def spoil_before(self, work: Work, edge: RegionEdge) -> None:
        """Makes the preimage bad at a node without an invariant."""
        graph_edge = work.graph.edges[edge.edge]
        target = work.atoms(edge.target)
        rows = preimage(graph_edge, target)
        atoms = rows
        if not self.with_ranges or isinstance(graph_edge, Input | Pick):
            atoms = free_preimage(graph_edge, target)
        work.spoil_before(edge, rows, self.general(work, edge, [atoms]))

    def general(self, work: Work, edge: RegionEdge, cubes: Iterable[list[Atom]]) -> list[Atom]:
        """Of the first cube that isn't reached the atoms that are enough for that.

        Where none is seen not to be reached, the first one.
        """
        first = None
        for atoms in cubes:
            try:
                needed = self.reach.needed(work.node(edge.source), atoms)
            except Reached:
                first = atoms if first is None else first
                continue
            return [atoms[number] for number in sorted(needed)]
        return first or []


def prove(
    graphs: Graphs, assertion: int, invariants: Invariants, deadline: float
) -> Bundle:
    """A bundle that no run fails at the assertion; raises `GaveUp`."""
    try:
        try:
            return Prover(graphs, assertion, invariants, deadline, False).prove()
        except NotInductive:
            return Prover(graphs, assertion, invariants, deadline, True).prove()
    except TooWide as wide:
        raise GaveUp(f"a row beyond the limits: {wide}") from wide
