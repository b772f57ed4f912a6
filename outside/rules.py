"""Constrained Horn clauses of graphs: what holds at the end of a path, where it may be taken.

A clause is a path from one cut node to the next one, with all values between them substituted, so
that it speaks of the slots and entry values at its beginning and of symbols for what is read on
the way. A call is an application of its procedure's predicate of returns, or where it is inlined
the path through the procedure.
"""

from collections.abc import Callable
from dataclasses import dataclass, replace

from outside.graphs import Assert, Assign, Call, Edge, Graph, Guard, Input, Pick, Return
from outside.invariants import GaveUp
from outside.linear import (
    FIRST_ENTRY,
    FIRST_EXIT,
    FIRST_SYMBOL,
    MAX_VALUE,
    MIN_VALUE,
    Atom,
    Term,
    column_term,
    combination,
    constant_term,
    substituted,
)
from outside.plan import Plan, Predicate

MAX_RULES = 20_000

Application = tuple[str, tuple[Term, ...]]


@dataclass(frozen=True)
class Rule:
    """Where the applications and the guards hold, the head holds; without a head they can't."""

    body: tuple[Application, ...]
    guards: tuple[Atom, ...]
    head: Application | None

    def columns(self) -> list[int]:
        """The columns that it speaks of, ascending."""
        columns = {x for guard in self.guards for x, _ in guard.parts}
        for _, arguments in (*self.body, *([self.head] if self.head else [])):
            columns |= {x for term in arguments for x, _ in term.parts}
        return sorted(columns)


@dataclass(frozen=True)
class Path:
    """A way from a cut node: where it is, the slots' values, what holds, and what was called."""

    node: int
    slots: dict[int, Term]
    guards: tuple[Atom, ...]
    calls: tuple[Application, ...]

    def is_possible(self) -> bool:
        """Whether no guard is false of itself."""
        return all(guard.parts or guard.constant <= 0 for guard in self.guards)


@dataclass(frozen=True)
class Through:
    """A path through an inlined procedure: what it returns over its entry values, or a failure."""

    exits: tuple[Term, ...] | None
    guards: tuple[Atom, ...]


def range_guards(term: Term) -> tuple[Atom, ...]:
    """The rows that keep a term among the values of 64 bits."""
    return combination([(1, term)], -MAX_VALUE), combination([(-1, term)], MIN_VALUE)


def with_guards(guards: tuple[Atom, ...], new: tuple[Atom, ...]) -> tuple[Atom, ...]:
    """Guards and new ones: without those that others imply, and false alone where two can't hold."""
    bounds = {guard.parts: guard.constant for guard in guards}
    for guard in new:
        if not guard.parts:
            if guard.constant > 0:
                return (constant_term(1),)
            continue
        bound = max(guard.constant, bounds.get(guard.parts, guard.constant))
        opposite = bounds.get(tuple((x, -a) for x, a in guard.parts))
        if opposite is not None and bound + opposite > 0:
            return (constant_term(1),)
        bounds[guard.parts] = bound
    return tuple(Term(parts, constant) for parts, constant in bounds.items())


def _is_column(term: Term) -> bool:
    return len(term.parts) == 1 and term.parts[0][1] == 1 and term.constant == 0


class Maker:
    """The rules of a plan, one after another."""

    def __init__(self, plan: Plan) -> None:
        self.plan = plan
        self.rules: list[Rule] = []
        self.symbols = 0
        self.through: dict[int, list[Through]] = {}

    def make(self) -> list[Rule]:
        """All rules; the last one says that `main` doesn't fail."""
        for number in sorted(self.plan.reached):
            self._procedure(number)
        main = self.plan.failures.get(self.plan.graphs.main)
        if main:
            self.rules.append(Rule(((main.name, ()),), (), None))
        return self.rules

    def _procedure(self, number: int) -> None:
        """The rules of a procedure: from its entry, and from each cut node."""
        graph = self.plan.graphs.graphs[number]
        walk = Walk(self, number, Rules(self, number))
        walk.begin()
        for (procedure, node), predicate in self.plan.cuts.items():
            if procedure == number:
                slots = {slot: column_term(slot) for slot in range(graph.slots)}
                begun = (predicate.name, tuple(map(column_term, predicate.columns)))
                walk.go(Path(node, slots, (), (begun,)))

    def symbol(self) -> Term:
        """A new symbol."""
        self.symbols += 1
        return column_term(FIRST_SYMBOL + self.symbols)

    def add(self, path: Path, head: Application) -> None:
        """A rule at the end of a path."""
        if not path.is_possible():
            return
        if len(self.rules) >= MAX_RULES:
            raise GaveUp("too many Horn clauses")
        self.rules.append(Rule(path.calls, path.guards, head))

    def paths_through(self, number: int) -> list[Through]:
        """The paths through an inlined procedure, made once."""
        if number not in self.through:
            ends = Throughs(self)
            Walk(self, number, ends).begin()
            self.through[number] = ends.found
        return self.through[number]

    def fresh(self, through: Through, entries: tuple[Term, ...]) -> Through:
        """A path through a procedure from these entry values, with new symbols."""
        symbols: dict[int, Term] = {}

        def by(column: int) -> Term:
            """What stands in the place of a column."""
            if column < FIRST_EXIT:
                return entries[column - FIRST_ENTRY]
            if column not in symbols:
                symbols[column] = self.symbol()
            return symbols[column]

        guards = tuple(substituted(guard, by) for guard in through.guards)
        if through.exits is None:
            return Through(None, guards)
        return Through(tuple(substituted(term, by) for term in through.exits), guards)


class Rules:
    """The ends of paths as rules."""

    def __init__(self, maker: Maker, number: int) -> None:
        self.maker = maker
        self.plan = maker.plan
        self.number = number
        params = maker.plan.graphs.graphs[number].params
        self.entries = tuple(column_term(FIRST_ENTRY + i) for i in range(params))

    def cut(self, path: Path) -> bool:
        """Ends a path at a cut node, if it is there."""
        cut = self.plan.cuts.get((self.number, path.node))
        if cut is not None:
            self.maker.add(path, (cut.name, self.arguments(cut, path)))
        return cut is not None

    def arguments(self, cut: Predicate, path: Path) -> tuple[Term, ...]:
        """What a cut node's predicate is of at the end of a path."""
        return tuple(path.slots[x] if x < FIRST_ENTRY else column_term(x) for x in cut.columns)

    def fail(self, path: Path) -> None:
        """The end of a path that fails."""
        failure = self.plan.failures.get(self.number)
        if failure:
            self.maker.add(path, (failure.name, self.entries))

    def leave(self, path: Path, values: tuple[Term, ...]) -> None:
        """The end of a path that returns; what `main` returns counts nowhere."""
        returns = self.plan.returns.get(self.number)
        if returns:
            exits = (x - FIRST_EXIT for x in returns.columns[len(self.entries) :])
            chosen = tuple(values[i] for i in exits)
            self.maker.add(path, (returns.name, self.entries + chosen))


class Throughs:
    """The ends of paths of an inlined procedure."""

    def __init__(self, maker: Maker) -> None:
        self.maker = maker
        self.found: list[Through] = []

    def cut(self, path: Path) -> bool:
        """No path ends on the way."""
        return False

    def fail(self, path: Path) -> None:
        """A path that fails."""
        self.end(path, None)

    def leave(self, path: Path, values: tuple[Term, ...]) -> None:
        """A path that returns."""
        self.end(path, values)

    def end(self, path: Path, exits: tuple[Term, ...] | None) -> None:
        """Keeps a path that is possible."""
        if path.is_possible():
            if len(self.found) >= MAX_RULES:
                raise GaveUp("too many paths through a procedure")
            self.found.append(Through(exits, path.guards))


class Walk:
    """Goes along the paths of one procedure."""

    def __init__(self, maker: Maker, number: int, ends: Rules | Throughs) -> None:
        self.maker = maker
        self.plan = maker.plan
        self.graph: Graph = maker.plan.graphs.graphs[number]
        self.ends = ends
        self.out: dict[int, list[Edge]] = {}
        for edge in self.graph.edges:
            if edge.source is not None:
                self.out.setdefault(edge.source, []).append(edge)
        self.paths: list[Path] = []
        self.steps: dict[type, Callable] = {
            Assign: self.assign,
            Guard: self.guard,
            Assert: self.fail,
            Input: self.input,
            Pick: self.pick,
            Call: self.call,
            Return: self.leave,
        }

    def begin(self) -> None:
        """Takes all paths from the entry to their ends."""
        slots = {
            slot: column_term(FIRST_ENTRY + slot) if slot < self.graph.params else constant_term(0)
            for slot in range(self.graph.slots)
        }
        self.arrive(Path(self.graph.first_node(), slots, (), ()))
        self.run()

    def go(self, path: Path) -> None:
        """Takes all paths from a cut node to their ends."""
        self.paths.append(path)
        self.run()

    def run(self) -> None:
        """Takes all paths that wait to their ends."""
        while self.paths:
            path = self.paths.pop()
            for edge in self.out.get(path.node, []):
                self.steps[type(edge)](path, edge)

    def arrive(self, path: Path) -> None:
        """Ends a path at a cut node; else it goes on."""
        if path.is_possible() and not self.ends.cut(path):
            self.paths.append(path)

    def guarded(self, path: Path, node: int, rows: tuple[Atom, ...]) -> Path:
        """The path to a node where rows hold."""
        new = tuple(substituted(row, path.slots.get) for row in rows)
        return replace(path, node=node, guards=with_guards(path.guards, new))

    def assign(self, path: Path, edge: Assign) -> None:
        """A value; with ranges it is one of 64 bits."""
        value = substituted(edge.value(), path.slots.get)
        guards = path.guards
        if self.plan.style.ranges and not _is_column(value):
            guards = with_guards(guards, range_guards(value))
        slots = {**path.slots, edge.slot: value}
        self.arrive(replace(path, node=edge.target, slots=slots, guards=guards))

    def guard(self, path: Path, edge: Guard) -> None:
        """Rows that hold."""
        self.arrive(self.guarded(path, edge.target, edge.rows))

    def fail(self, path: Path, edge: Assert) -> None:
        """A failure, where it is the plan's assertion."""
        if edge.assertion == self.plan.assertion:
            self.ends.fail(self.guarded(path, edge.target, edge.rows))

    def input(self, path: Path, edge: Input) -> None:
        """A value that is read."""
        slots = {**path.slots, edge.slot: self.maker.symbol()}
        self.arrive(replace(path, node=edge.target, slots=slots))

    def pick(self, path: Path, edge: Pick) -> None:
        """A value with which rows hold."""
        slots = {**path.slots, edge.slot: self.maker.symbol()}
        self.arrive(self.guarded(replace(path, slots=slots), edge.target, edge.rows))

    def call(self, path: Path, edge: Call) -> None:
        """A call that fails, and one that returns."""
        entries = tuple(path.slots[slot] for slot in edge.arguments)
        if edge.procedure in self.plan.inlined:
            self.inline(path, edge, entries)
            return
        failure = self.plan.failures.get(edge.procedure)
        if failure:
            self.ends.fail(replace(path, calls=(*path.calls, (failure.name, entries))))
        results = {slot: self.maker.symbol() for slot in edge.results}
        returns = self.plan.returns[edge.procedure]
        exits = (edge.results[x - FIRST_EXIT] for x in returns.columns[len(entries) :])
        applied = (returns.name, entries + tuple(results[slot] for slot in exits))
        slots = {**path.slots, **results}
        self.arrive(replace(path, node=edge.target, slots=slots, calls=(*path.calls, applied)))

    def inline(self, path: Path, edge: Call, entries: tuple[Term, ...]) -> None:
        """The paths through a callee."""
        for known in self.maker.paths_through(edge.procedure):
            through = self.maker.fresh(known, entries)
            further = replace(path, guards=with_guards(path.guards, through.guards))
            if not further.is_possible():
                continue
            if through.exits is None:
                self.ends.fail(further)
                continue
            slots = {**path.slots, **dict(zip(edge.results, through.exits))}
            self.arrive(replace(further, node=edge.target, slots=slots))

    def leave(self, path: Path, edge: Return) -> None:
        """A return."""
        self.ends.leave(path, tuple(path.slots[slot] for slot in edge.slots))


def rules_of(plan: Plan) -> list[Rule]:
    """The rules of a plan. Their predicates have values where no run fails at the assertion."""
    return Maker(plan).make()
