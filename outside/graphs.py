"""Control-flow graphs, and their text as `smash_graphs` prints it."""

from collections.abc import Iterable
from dataclasses import dataclass

from outside.linear import Atom, Term, column_term, combination, is_within

MAX_NUMBER = 2**32


@dataclass(frozen=True)
class Entry:
    """A frame begins: entry values in the first slots, and 0 in the others."""

    target: int
    params: int
    source: None = None


@dataclass(frozen=True)
class Assign:
    """The slot gets the exact value; there is no step where it isn't one of 64 bits."""

    source: int
    target: int
    slot: int
    parts: tuple[tuple[int, int], ...]
    constant: int

    def value(self) -> Term:
        """The value as a term over slots."""
        return combination(((a, column_term(x)) for x, a in self.parts), self.constant)


@dataclass(frozen=True)
class Guard:
    """The rows hold."""

    source: int
    target: int
    rows: tuple[Atom, ...]


@dataclass(frozen=True)
class Input:
    """The slot gets the next input."""

    source: int
    target: int
    slot: int


@dataclass(frozen=True)
class Pick:
    """The slot gets any value with which the rows hold."""

    source: int
    target: int
    slot: int
    rows: tuple[Atom, ...]


@dataclass(frozen=True)
class Call:
    """The procedure runs on the arguments' values, and its exit values go into the results."""

    source: int
    target: int
    procedure: int
    arguments: tuple[int, ...]
    results: tuple[int, ...]


@dataclass(frozen=True)
class Assert:
    """The rows hold, and the assertion fails."""

    source: int
    target: int
    assertion: int
    rows: tuple[Atom, ...]


@dataclass(frozen=True)
class Return:
    """The frame returns the values of these slots."""

    source: int
    target: int
    slots: tuple[int, ...]


Edge = Entry | Assign | Guard | Input | Pick | Call | Assert | Return


@dataclass(frozen=True)
class Graph:
    """The graph of a procedure; edge 0 is its entry."""

    nodes: int
    exit: int
    fail: int
    params: int
    exits: int
    slots: int
    edges: tuple[Edge, ...]

    def first_node(self) -> int:
        """The node after the entry."""
        return self.edges[0].target


@dataclass(frozen=True)
class Graphs:
    """The graphs of a program by the numbers of its procedures."""

    main: int
    graphs: tuple[Graph, ...]

    def assertions(self) -> int:
        """How many assertions there are, as far as edges tell."""
        known = [e.assertion for g in self.graphs for e in g.edges if isinstance(e, Assert)]
        return max(known, default=-1) + 1


class BadGraphs(Exception):
    """The text isn't one of graphs; the message begins with the line's number."""


class _Line:
    """One line: a word, and then integers that are taken in order."""

    def __init__(self, number: int, text: str) -> None:
        self.number = number
        self.word, *self.items = text.split(" ")
        self.at = 0

    def fault(self, why: str) -> BadGraphs:
        """The fault of this line."""
        return BadGraphs(f"line {self.number}: {why}")

    def integer(self) -> int:
        """The next number."""
        if self.at == len(self.items):
            raise self.fault("a number is missing")
        text = self.items[self.at]
        self.at += 1
        digits = text.removeprefix("-")
        is_number = digits.isascii() and digits.isdigit() and len(digits) <= 40
        if not is_number or str(int(digits)) != digits or text == "-0":
            raise self.fault(f"no number: {text[:40]!r}")
        return int(text)

    def count(self) -> int:
        """The next number, which is one of things."""
        number = self.integer()
        if not 0 <= number < MAX_NUMBER:
            raise self.fault(f"out of range: {number}")
        return number

    def counts(self) -> tuple[int, ...]:
        """A list of numbers after its length."""
        return tuple(self.count() for _ in range(self.count()))

    def pairs(self) -> tuple[tuple[int, int], ...]:
        """A list of pairs after its length."""
        return tuple((self.count(), self.integer()) for _ in range(self.count()))

    def end(self) -> None:
        """Raises if there is more in the line."""
        if self.at != len(self.items):
            raise self.fault("more numbers than there should be")


class _Reader:
    """The lines of a text, taken in order."""

    def __init__(self, text: str) -> None:
        if not text.endswith("\n"):
            raise BadGraphs("line 1: the text doesn't end in a line feed")
        self.lines = text[:-1].split("\n")
        self.at = 0

    def line(self, *words: str) -> _Line:
        """The next line, which begins with one of these words."""
        if self.at == len(self.lines):
            raise BadGraphs(f"line {self.at + 1}: the text ends too early")
        line = _Line(self.at + 1, self.lines[self.at])
        self.at += 1
        if line.word not in words:
            raise line.fault(f"{' or '.join(words)} wanted, not {line.word[:40]!r}")
        return line

    def number(self, word: str) -> int:
        """The only number of the next line."""
        line = self.line(word)
        number = line.count()
        line.end()
        return number

    def rows(self, count: int) -> tuple[Atom, ...]:
        """So many rows."""
        return tuple(self.row() for _ in range(count))

    def row(self) -> Atom:
        """A row in its only form."""
        line = self.line("row")
        row = Term(line.pairs(), line.integer())
        line.end()
        columns = row.columns()
        if sorted(set(columns)) != columns or any(a == 0 for _, a in row.parts):
            raise line.fault("columns don't ascend, or a coefficient is 0")
        if not is_within(row):
            raise line.fault("a row beyond the limits")
        return row

    def edge(self) -> Edge:
        """An edge with its rows."""
        line = self.line(*_KINDS)
        edge = _KINDS[line.word](self, line)
        line.end()
        return edge

    def graph(self) -> Graph:
        """A graph with its edges."""
        line = self.line("graph")
        nodes, exit_node, fail, params, exits, slots, edges = (line.count() for _ in range(7))
        line.end()
        first = self.at
        read = tuple(self.edge() for _ in range(edges))
        graph = Graph(nodes, exit_node, fail, params, exits, slots, read)
        check_graph(graph, first + 1)
        return graph


def _guard(reader: _Reader, line: _Line) -> Guard:
    """A guard with its rows."""
    return Guard(line.count(), line.count(), reader.rows(line.count()))


def _pick(reader: _Reader, line: _Line) -> Pick:
    """A pick with its rows."""
    return Pick(line.count(), line.count(), line.count(), reader.rows(line.count()))


def _assertion(reader: _Reader, line: _Line) -> Assert:
    """A failing assertion with its rows."""
    return Assert(line.count(), line.count(), line.count(), reader.rows(line.count()))


_KINDS = {
    "entry": lambda _, line: Entry(line.count(), line.count()),
    "assign": lambda _, line: Assign(
        line.count(), line.count(), line.count(), line.pairs(), line.integer()
    ),
    "guard": _guard,
    "input": lambda _, line: Input(line.count(), line.count(), line.count()),
    "pick": _pick,
    "call": lambda _, line: Call(
        line.count(), line.count(), line.count(), line.counts(), line.counts()
    ),
    "assert": _assertion,
    "return": lambda _, line: Return(line.count(), line.count(), line.counts()),
}


def slots_of(edge: Edge) -> list[int]:
    """The slots that an edge names."""
    match edge:
        case Entry():
            return []
        case Assign():
            return [edge.slot, *(x for x, _ in edge.parts)]
        case Guard() | Assert():
            return [x for row in edge.rows for x in row.columns()]
        case Input():
            return [edge.slot]
        case Pick():
            return [edge.slot, *(x for row in edge.rows for x in row.columns())]
        case Call():
            return [*edge.arguments, *edge.results]
        case Return():
            return list(edge.slots)


def check_graph(graph: Graph, line: int) -> None:
    """Raises unless nodes and slots exist, and the ends are where they should be."""
    if not graph.edges or not isinstance(graph.edges[0], Entry):
        raise BadGraphs(f"line {line}: a graph begins with its entry")
    if graph.exit == graph.fail or max(graph.exit, graph.fail) >= graph.nodes:
        raise BadGraphs(f"line {line}: the exit and the failure are two nodes")
    for number, edge in enumerate(graph.edges):
        named = [edge.target] if edge.source is None else [edge.source, edge.target]
        wrong = (
            (number > 0 and isinstance(edge, Entry))
            or any(node >= graph.nodes for node in named)
            or any(slot >= graph.slots for slot in slots_of(edge))
            or edge.source in (graph.exit, graph.fail)
            or isinstance(edge, Return) != (edge.target == graph.exit)
            or isinstance(edge, Assert) != (edge.target == graph.fail)
        )
        if wrong:
            raise BadGraphs(f"line {line}: edge {number} of this graph doesn't fit it")


def check_calls(graphs: Graphs) -> None:
    """Raises unless each call has as many arguments and results as its procedure takes."""
    for number, graph in enumerate(graphs.graphs):
        for edge in graph.edges:
            if isinstance(edge, Return) and len(edge.slots) != graph.exits:
                raise BadGraphs(f"graph {number}: a return of another number of values")
            if not isinstance(edge, Call):
                continue
            if edge.procedure >= len(graphs.graphs):
                raise BadGraphs(f"graph {number}: a call of no procedure")
            callee = graphs.graphs[edge.procedure]
            if (len(edge.arguments), len(edge.results)) != (callee.params, callee.exits):
                raise BadGraphs(f"graph {number}: a call that doesn't fit its procedure")


def read_graphs(text: str) -> Graphs:
    """The graphs of a text; any other text raises `BadGraphs`."""
    reader = _Reader(text)
    line = reader.line("smash-graphs")
    if line.count() != 1:
        raise line.fault("another version of the text")
    line.end()
    main = reader.number("main")
    graphs = tuple(reader.graph() for _ in range(reader.number("graphs")))
    if reader.at != len(reader.lines):
        raise BadGraphs(f"line {reader.at + 1}: more lines than there should be")
    if main >= len(graphs):
        raise BadGraphs("line 2: there is no such procedure")
    read = Graphs(main, graphs)
    check_calls(read)
    return read


def _numbers(items: Iterable[int]) -> str:
    """Numbers, each after a blank."""
    return "".join(f" {item}" for item in items)


def row_text(row: Atom) -> str:
    """A row as a line."""
    pairs = _numbers(item for pair in row.parts for item in pair)
    return f"row {len(row.parts)}{pairs} {row.constant}\n"


def _rows_text(rows: tuple[Atom, ...]) -> str:
    """How many rows there are, and the rows."""
    return f" {len(rows)}\n" + "".join(map(row_text, rows))


def edge_text(edge: Edge) -> str:
    """An edge as lines."""
    match edge:
        case Entry():
            return f"entry {edge.target} {edge.params}\n"
        case Assign():
            pairs = _numbers(item for pair in edge.parts for item in pair)
            head = f"assign {edge.source} {edge.target} {edge.slot} {len(edge.parts)}"
            return f"{head}{pairs} {edge.constant}\n"
        case Guard():
            return f"guard {edge.source} {edge.target}{_rows_text(edge.rows)}"
        case Input():
            return f"input {edge.source} {edge.target} {edge.slot}\n"
        case Pick():
            return f"pick {edge.source} {edge.target} {edge.slot}{_rows_text(edge.rows)}"
        case Call():
            head = f"call {edge.source} {edge.target} {edge.procedure} {len(edge.arguments)}"
            results = f"{len(edge.results)}{_numbers(edge.results)}"
            return f"{head}{_numbers(edge.arguments)} {results}\n"
        case Assert():
            head = f"assert {edge.source} {edge.target} {edge.assertion}"
            return f"{head}{_rows_text(edge.rows)}"
        case Return():
            return f"return {edge.source} {edge.target} {len(edge.slots)}{_numbers(edge.slots)}\n"


def graphs_text(graphs: Graphs) -> str:
    """The text of graphs, which `read_graphs` reads."""
    lines = [f"smash-graphs 1\nmain {graphs.main}\ngraphs {len(graphs.graphs)}\n"]
    for g in graphs.graphs:
        head = (g.nodes, g.exit, g.fail, g.params, g.exits, g.slots, len(g.edges))
        lines.append(f"graph{_numbers(head)}\n")
        lines.extend(map(edge_text, g.edges))
    return "".join(lines)
