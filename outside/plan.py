"""What the Horn clauses of an assertion speak of: cut nodes, live slots, and who may fail."""

from collections.abc import Iterator
from dataclasses import dataclass, field

from outside.graphs import Assert, Assign, Call, Edge, Entry, Graph, Graphs, Input, Pick, Return
from outside.linear import FIRST_ENTRY, FIRST_EXIT


@dataclass(frozen=True)
class Style:
    """Which clauses are made: with the ranges of 64 bits or over all integers, and the cut nodes.

    `joins` is 0 where only heads of loops and the ends of calls are cut, 1 where joins are cut too,
    and 2 where also the nodes from which a value is picked are. Where calls are `inlined`, heads of
    loops alone are cut, and calls of procedures without loops and recursion go along their paths.
    """

    ranges: bool
    joins: int
    inlined: bool = False


@dataclass(frozen=True)
class Predicate:
    """A predicate of the clauses: what it is of, and the columns that its arguments stand for.

    `kind` is `node`, `summary` or `failure`; `node` counts only for the first.
    """

    name: str
    kind: str
    procedure: int
    node: int
    columns: tuple[int, ...]


@dataclass
class Plan:
    """The predicates of an assertion's clauses."""

    graphs: Graphs
    assertion: int
    style: Style
    reached: set[int]
    failing: set[int]
    inlined: set[int] = field(default_factory=set)
    cuts: dict[tuple[int, int], Predicate] = field(default_factory=dict)
    returns: dict[int, Predicate] = field(default_factory=dict)
    failures: dict[int, Predicate] = field(default_factory=dict)

    def predicates(self) -> Iterator[Predicate]:
        """All predicates, in a fixed order."""
        yield from self.cuts.values()
        yield from self.returns.values()
        yield from self.failures.values()


def reached_procedures(graphs: Graphs) -> set[int]:
    """The procedures that `main` calls, at once or further down, and `main`."""
    reached: set[int] = set()
    waiting = [graphs.main]
    while waiting:
        procedure = waiting.pop()
        if procedure not in reached:
            reached.add(procedure)
            edges = graphs.graphs[procedure].edges
            waiting.extend(e.procedure for e in edges if isinstance(e, Call))
    return reached


def failing_procedures(graphs: Graphs, assertion: int) -> set[int]:
    """The procedures that have the assertion, or call one of them."""
    failing: set[int] = set()
    before = -1
    while before != len(failing):
        before = len(failing)
        for number, graph in enumerate(graphs.graphs):
            if any(_fails(edge, assertion, failing) for edge in graph.edges):
                failing.add(number)
    return failing


def _fails(edge: Edge, assertion: int, failing: set[int]) -> bool:
    if isinstance(edge, Assert):
        return edge.assertion == assertion
    return isinstance(edge, Call) and edge.procedure in failing


class Liveness:
    """The slots of each node whose values may still count, for all procedures at once.

    An exit value counts where some caller's slot does; those of `main` never count.
    """

    def __init__(self, graphs: Graphs, assertion: int, reached: set[int], ranges: bool) -> None:
        self.assertion = assertion
        self.ranges = ranges
        self.exits: list[set[int]] = [set() for _ in graphs.graphs]
        self.live = [[set[int]() for _ in range(g.nodes)] for g in graphs.graphs]
        changed = True
        while changed:
            changed = False
            for number in reached:
                changed |= self._procedure(number, graphs.graphs[number])

    def _procedure(self, number: int, graph: Graph) -> bool:
        """Goes over a procedure's edges until nothing changes there."""
        live, changed, again = self.live[number], False, True
        while again:
            again = False
            for edge in reversed(graph.edges):
                if edge.source is None:
                    continue
                again |= self._results(edge, live[edge.target])
                new = self._before(number, edge, live[edge.target]) - live[edge.source]
                live[edge.source] |= new
                again |= bool(new)
            changed |= again
        return changed

    def _results(self, edge: Edge, after: set[int]) -> bool:
        """Notes which exit values a call needs."""
        if not isinstance(edge, Call):
            return False
        exits = self.exits[edge.procedure]
        new = {i for i, slot in enumerate(edge.results) if slot in after} - exits
        exits |= new
        return bool(new)

    def _before(self, number: int, edge: Edge, after: set[int]) -> set[int]:
        """The slots that count before an edge, where those count after it."""
        match edge:
            case Assign():
                if edge.slot not in after and not self.ranges:
                    return after
                return (after - {edge.slot}) | {slot for slot, _ in _parts(edge)}
            case Assert():
                return _columns(edge.rows) if edge.assertion == self.assertion else set()
            case Input():
                return after - {edge.slot}
            case Pick():
                return (after | _columns(edge.rows)) - {edge.slot}
            case Call():
                return (after - set(edge.results)) | set(edge.arguments)
            case Return():
                return {slot for i, slot in enumerate(edge.slots) if i in self.exits[number]}
            case Entry():
                return set()
        return after | _columns(edge.rows)


def _parts(edge: Assign) -> tuple[tuple[int, int], ...]:
    return edge.value().parts


def _columns(rows: tuple) -> set[int]:
    return {column for row in rows for column in row.columns()}


def loop_heads(graph: Graph) -> tuple[set[int], set[int]]:
    """The nodes to which an edge of a depth-first walk leads back, and all nodes that are reached."""
    out: dict[int, list[int]] = {}
    for edge in graph.edges:
        if edge.source is not None:
            out.setdefault(edge.source, []).append(edge.target)
    heads: set[int] = set()
    open_nodes = {graph.first_node()}
    seen = {graph.first_node()}
    stack = [(graph.first_node(), iter(out.get(graph.first_node(), [])))]
    while stack:
        node, targets = stack[-1]
        target = next(targets, None)
        if target is None:
            open_nodes.discard(node)
            stack.pop()
        elif target in open_nodes:
            heads.add(target)
        elif target not in seen:
            seen.add(target)
            open_nodes.add(target)
            stack.append((target, iter(out.get(target, []))))
    return heads, seen


def straight_procedures(graphs: Graphs) -> set[int]:
    """The procedures without loops and recursion, whose callees are such too."""
    straight: set[int] = set()
    heads = [loop_heads(graph)[0] for graph in graphs.graphs]
    before = -1
    while before != len(straight):
        before = len(straight)
        for number, graph in enumerate(graphs.graphs):
            callees = {e.procedure for e in graph.edges if isinstance(e, Call)}
            if not heads[number] and callees <= straight and number != graphs.main:
                straight.add(number)
    return straight


def is_straight(graphs: Graphs) -> bool:
    """Whether no loop and no recursion is reached."""
    callees = reached_procedures(graphs) - {graphs.main}
    heads, _ = loop_heads(graphs.graphs[graphs.main])
    return not heads and callees <= straight_procedures(graphs)


def cut_nodes(graph: Graph, style: Style) -> list[int]:
    """The nodes that get a predicate, ascending."""
    chosen, seen = loop_heads(graph)
    if style.inlined:
        return sorted(chosen)
    joins = style.joins
    ways_in = [0] * graph.nodes
    for edge in graph.edges:
        ways_in[edge.target] += not isinstance(edge, Assert)
        if isinstance(edge, Call):
            chosen |= {edge.source, edge.target}
        if isinstance(edge, Pick) and joins == 2:
            chosen.add(edge.source)
    if joins > 0:
        chosen |= {node for node, count in enumerate(ways_in) if count > 1}
    return sorted((chosen & seen) - {graph.exit, graph.fail})


def make_plan(graphs: Graphs, assertion: int, style: Style) -> Plan:
    """The predicates for an assertion, counted from 0."""
    reached = reached_procedures(graphs)
    failing = failing_procedures(graphs, assertion) & reached
    inlined = straight_procedures(graphs) if style.inlined else set()
    plan = Plan(graphs, assertion, style, reached - inlined, failing - inlined, inlined)
    live = Liveness(graphs, assertion, reached, style.ranges)
    for number in sorted(plan.reached):
        add_predicates(plan, number, live)
    return plan


def add_predicates(plan: Plan, number: int, live: Liveness) -> None:
    """The predicates of a procedure."""
    graph = plan.graphs.graphs[number]
    entries = tuple(range(FIRST_ENTRY, FIRST_ENTRY + graph.params))
    for node in cut_nodes(graph, plan.style):
        columns = tuple(sorted(live.live[number][node])) + entries
        name = f"n{number}_{node}"
        plan.cuts[number, node] = Predicate(name, "node", number, node, columns)
    if number != plan.graphs.main:
        columns = entries + tuple(FIRST_EXIT + i for i in sorted(live.exits[number]))
        plan.returns[number] = Predicate(f"r{number}", "summary", number, 0, columns)
    if number in plan.failing:
        plan.failures[number] = Predicate(f"f{number}", "failure", number, 0, entries)
