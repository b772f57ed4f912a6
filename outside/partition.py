"""Regions of a procedure's states and the live edges between them, numbered as the checker does."""

from collections.abc import Iterable, Sequence
from dataclasses import dataclass
from typing import NamedTuple

from outside.graphs import Assert, Call, Graph
from outside.linear import Atom, TooWide, is_within, negated, shown


class Query(NamedTuple):
    """Runs of a procedure that return, or that fail at an assertion, from a start to an end."""

    procedure: int
    fails_at: int | None
    start: tuple[Atom, ...]
    end: tuple[Atom, ...]


class RegionEdge(NamedTuple):
    """A graph edge with the regions that it leaves and leads to."""

    edge: int
    source: int
    target: int


@dataclass
class Region:
    """States at a node where all atoms hold."""

    node: int
    atoms: tuple[Atom, ...]


class Partition:
    """Region 0 is the outside before the entry, and region n + 1 begins as that of node n."""

    def __init__(self, graph: Graph, query: Query) -> None:
        self.graph = graph
        end = graph.exit if query.fails_at is None else graph.fail
        self.target = end + 1
        self.regions = [Region(graph.nodes, ())]
        for node in range(graph.nodes):
            first = node == graph.first_node()
            atoms = query.start if first else query.end if node == end else ()
            self.regions.append(Region(node, atoms))
        self.into: list[dict[RegionEdge, None]] = [{} for _ in self.regions]
        self.out: list[dict[RegionEdge, None]] = [{} for _ in self.regions]
        for number, edge in enumerate(graph.edges):
            if isinstance(edge, Assert) and query.fails_at not in (None, edge.assertion):
                continue
            source = 0 if edge.source is None else edge.source + 1
            self._add(RegionEdge(number, source, edge.target + 1))
            if isinstance(edge, Call):
                self._add(RegionEdge(number, source, graph.fail + 1))

    def _add(self, edge: RegionEdge) -> None:
        """The edge is live."""
        self.into[edge.target][edge] = None
        self.out[edge.source][edge] = None

    def is_live(self, edge: RegionEdge) -> bool:
        """Whether the edge is live."""
        return edge in self.into[edge.target]

    def kill(self, edge: RegionEdge) -> None:
        """The edge isn't live any more."""
        del self.into[edge.target][edge]
        del self.out[edge.source][edge]

    def split(self, edge: RegionEdge, atoms: Sequence[Atom]) -> range:
        """Divides the source by the atoms; the piece where all hold keeps the number.

        Where the edge is of the graph, the new pieces have none like it to the target. The answer
        is the new pieces' numbers.
        """
        for atom in atoms:
            if not is_within(negated(atom)):
                raise TooWide(shown(negated(atom)))
        region = edge.source
        old = self.regions[region]
        first = len(self.regions)
        for place, atom in enumerate(atoms):
            done = (*old.atoms, *atoms[:place], negated(atom))
            self.regions.append(Region(old.node, done))
            self.into.append({})
            self.out.append({})
        self.regions[region] = Region(old.node, (*old.atoms, *atoms))
        new = range(first, len(self.regions))
        self._copy_edges(edge, new)
        return new

    def _copy_edges(self, cut: RegionEdge, new: Iterable[int]) -> None:
        """Gives new pieces the edges of their region."""
        region = cut.source
        into = list(self.into[region])
        out = [e for e in self.out[region] if e.target != region]
        loops = [e.edge for e in self.out[region] if e.target == region]
        pieces = [region, *new]
        for piece in new:
            for e in into:
                if e.source != region:
                    self._add(RegionEdge(e.edge, e.source, piece))
            for e in out:
                if (e.edge, e.target) != (cut.edge, cut.target):
                    self._add(RegionEdge(e.edge, piece, e.target))
        for loop in loops:
            for a in pieces:
                for b in pieces:
                    made = RegionEdge(loop, a, b)
                    is_cut = a != region and (loop, b) == (cut.edge, cut.target)
                    if made not in self.into[b] and not is_cut:
                        self._add(made)
