"""A claim in the making: its partition, which regions are bad, and which edges are to be closed."""

import heapq
from collections import deque
from collections.abc import Callable, Sequence

from outside.bundle import Kill, KillCall, Move, Split
from outside.certificates import Certificate
from outside.graphs import Graph
from outside.invariants import GaveUp
from outside.linear import Atom, Point, divisor_of, holds_all, negated, tightened
from outside.partition import Partition, Query, RegionEdge
from outside.solver import SolverLimit, solve


def ask(atoms: Sequence[Atom]) -> Certificate | dict[int, int]:
    """A certificate that nothing meets the atoms, or a point that does."""
    try:
        return solve(atoms)
    except SolverLimit as limit:
        raise GaveUp(f"the solver's limit: {limit}") from limit


def entails(atoms: Sequence[Atom], atom: Atom) -> bool:
    """Whether the atom holds wherever these do, as far as the solver tells."""
    for known in atoms:
        if known.parts == atom.parts and known.constant >= atom.constant:
            return True
    try:
        return not isinstance(solve([*atoms, negated(atom)]), dict)
    except SolverLimit:
        return False


def ranks(graph: Graph) -> list[int]:
    """A number for each node: nodes from which a walk comes later to the end have greater ones."""
    following: list[list[int]] = [[] for _ in range(graph.nodes)]
    for edge in graph.edges:
        if edge.source is not None:
            following[edge.source].append(edge.target)
    order = [0] * graph.nodes
    seen = {graph.first_node()}
    stack = [(graph.first_node(), iter(following[graph.first_node()]))]
    count = 0
    while stack:
        node, rest = stack[-1]
        found = next((n for n in rest if n not in seen), None)
        if found is not None:
            seen.add(found)
            stack.append((found, iter(following[found])))
        else:
            stack.pop()
            count += 1
            order[node] = count
    return order


class Work:
    """From bad regions the claim's target can be reached; the others are good so far.

    `waiting` has the edges from good regions to bad ones that were not looked at, and `open` those
    that can't be killed, with a point that goes over each. A region at a node without an invariant
    is soft: it is bad by a preimage, which may be too large.
    """

    def __init__(self, graph: Graph, query: Query, is_soft: Callable[[int], bool]) -> None:
        self.graph = graph
        self.query = query
        self.partition = Partition(graph, query)
        self.is_soft_node = is_soft
        self.bad = [False] * len(self.partition.regions)
        self.waiting: deque[RegionEdge] = deque()
        self.open: dict[RegionEdge, Point] = {}
        self.heap: list[tuple[int, int, RegionEdge]] = []
        self.ranks = ranks(graph)
        self.moves: list[Move] = []
        self.mark(self.partition.target)

    def mark(self, region: int) -> None:
        """The region is bad from now on."""
        self.bad[region] = True
        for edge in self.partition.into[region]:
            self.open.pop(edge, None)
            self.waiting.append(edge)

    def atoms(self, region: int) -> tuple[Atom, ...]:
        """The atoms of a region."""
        return self.partition.regions[region].atoms

    def node(self, region: int) -> int:
        """The node of a region."""
        return self.partition.regions[region].node

    def is_soft(self, region: int) -> bool:
        """Whether only preimages make the region bad."""
        return region != 0 and self.is_soft_node(self.node(region))

    def is_open(self, edge: RegionEdge) -> bool:
        """Whether the edge is live, and leads from a good region to a bad one."""
        live = self.partition.is_live(edge)
        return live and self.bad[edge.target] and not self.bad[edge.source]

    def next_waiting(self) -> RegionEdge | None:
        """The next edge that wasn't looked at."""
        while self.waiting:
            edge = self.waiting.popleft()
            if edge not in self.open and self.is_open(edge):
                return edge
        return None

    def opened(self, edge: RegionEdge, point: Point) -> None:
        """The edge can't be killed: the point goes over it."""
        self.open[edge] = point
        rank = self.ranks[self.node(edge.target)]
        heapq.heappush(self.heap, (rank, len(self.moves), edge))

    def next_open(self) -> tuple[RegionEdge, Point] | None:
        """An edge that can't be killed, with its point; those near the end come first."""
        while self.heap:
            _, _, edge = heapq.heappop(self.heap)
            point = self.open.pop(edge, None)
            if point is not None and self.is_open(edge):
                return edge, point
        return None

    def kill(self, edge: RegionEdge, by: Certificate) -> None:
        """No step leads over the edge."""
        self.partition.kill(edge)
        self.moves.append(Kill(edge, by))

    def kill_call(self, edge: RegionEdge, claim: int, proofs: Sequence[Certificate]) -> None:
        """No call leads over the edge."""
        self.partition.kill(edge)
        self.moves.append(KillCall(edge, claim, tuple(proofs)))

    def split(self, edge: RegionEdge, atoms: Sequence[Atom]) -> None:
        """Divides the edge's source; its pieces stay as bad as it was."""
        source = edge.source
        new = self.partition.split(edge, atoms)
        self.moves.append(Split(edge, tuple(atoms)))
        self.bad.extend([self.bad[source]] * len(new))
        for piece in (source, *new):
            self.look_again(piece, source)

    def part(self, region: int, atoms: Sequence[Atom]) -> None:
        """Divides a region by atoms of any kind."""
        self.split(RegionEdge(0, region, region), atoms)

    def look_again(self, piece: int, whole: int) -> None:
        """The edges at a piece of a region are to be looked at; points in it still go over them."""
        if self.bad[piece]:
            self.mark(piece)
            return
        for edge in self.partition.out[piece]:
            before = RegionEdge(edge.edge, whole, edge.target)
            point = self.open.get(before)
            if point is not None and holds_all(self.atoms(piece), point):
                self.opened(edge, point)
            elif self.bad[edge.target]:
                self.waiting.append(edge)

    def spoil(self, region: int, atoms: Sequence[Atom]) -> None:
        """The part of a region where the atoms hold becomes bad."""
        keep = self.missing(region, [tightened(atom) for atom in atoms])
        if keep:
            self.part(region, keep)
        self.mark(region)

    def spoil_before(self, edge: RegionEdge, rows: Sequence[Atom], atoms: Sequence[Atom]) -> None:
        """The part of the source where these rows of the preimage hold becomes bad."""
        if any(atom not in rows or divisor_of(atom) > 1 for atom in atoms):
            self.spoil(edge.source, atoms)
            return
        keep = self.missing(edge.source, atoms)
        if keep:
            self.split(edge, keep)
        self.mark(edge.source)

    def retract(self, regions: Sequence[int]) -> None:
        """These regions, and the others made bad by preimages of them, are good again."""
        stack = list(regions)
        while stack:
            region = stack.pop()
            if self.bad[region] and self.is_soft(region):
                self.bad[region] = False
                stack.extend(edge.source for edge in self.partition.into[region])
                self.waiting.extend(self.partition.out[region])

    def missing(self, region: int, atoms: Sequence[Atom]) -> list[Atom]:
        """The atoms that the region doesn't entail, each beside those before it."""
        have = list(self.atoms(region))
        keep = []
        for atom in atoms:
            if not entails(have, atom):
                have.append(atom)
                keep.append(atom)
        return keep
