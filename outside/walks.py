"""Random runs of graphs, and the states that they meet at the places of predicates."""

import random
from collections.abc import Iterator
from dataclasses import dataclass, field
from typing import NoReturn

from outside.clock import now
from outside.graphs import Assert, Assign, Call, Edge, Graphs, Guard, Input, Pick, Return
from outside.linear import FIRST_ENTRY, FIRST_EXIT, MAX_VALUE, MIN_VALUE, Atom
from outside.plan import Plan, Predicate

RUN_STEPS = 6_000
MAX_DEPTH = 60
MAX_SAMPLES = 3_000

Sample = tuple[int, ...]


@dataclass
class Frame:
    """A procedure that runs."""

    procedure: int
    node: int
    slots: list[int]
    entries: tuple[int, ...]
    results: tuple[int, ...] = ()


class Stopped(Exception):
    """The run is at its end."""


def constants_of(graphs: Graphs) -> list[int]:
    """The constants of rows and assignments, and their neighbours."""
    found = {0, 1}
    for graph in graphs.graphs:
        for edge in graph.edges:
            if isinstance(edge, Assign):
                found.add(edge.constant)
            elif isinstance(edge, Guard | Assert):
                found |= {-row.constant for row in edge.rows} | {row.constant for row in edge.rows}
    near = {c + d for c in found for d in (-1, 0, 1)}
    return sorted(near, key=abs)


@dataclass
class Walks:
    """Random runs from a seed that is always the same."""

    plan: Plan
    samples: dict[str, set[Sample]] = field(default_factory=dict)

    def __post_init__(self) -> None:
        self.random = random.Random(1)
        self.graphs = self.plan.graphs
        self.constants = constants_of(self.graphs)
        self.small = [c for c in self.constants if abs(c) <= 12] or [0, 1]
        self.out: list[dict[int, list[Edge]]] = []
        for graph in self.graphs.graphs:
            out: dict[int, list[Edge]] = {}
            for edge in graph.edges:
                if edge.source is not None:
                    out.setdefault(edge.source, []).append(edge)
            self.out.append(out)
        for predicate in self.plan.predicates():
            self.samples[predicate.name] = set()

    def collect(self, steps: int, deadline: float) -> dict[str, set[Sample]]:
        """Samples from about so many steps."""
        while steps > 0 and now() < deadline:
            self.skew = self.random.choice((0.0, 0.3, 0.6))
            procedure = self.random.choice([self.graphs.main, *self.plan.returns])
            steps -= self.run_once(procedure) + 20
        return self.samples

    def run_once(self, procedure: int) -> int:
        """One run of a procedure from random values; the result is the number of its steps."""
        graph = self.graphs.graphs[procedure]
        entries = tuple(self.value() for _ in range(graph.params))
        frames = [self.begun(procedure, entries, [0] * graph.slots)]
        for steps in range(RUN_STEPS):
            try:
                self.step(frames)
            except Stopped:
                return steps
        return RUN_STEPS

    def begun(self, procedure: int, entries: tuple[int, ...], slots: list[int]) -> Frame:
        """A frame at its first node."""
        slots[: len(entries)] = entries
        frame = Frame(procedure, self.graphs.graphs[procedure].first_node(), slots, entries)
        self.note(frame)
        return frame

    def note(self, frame: Frame) -> None:
        """Keeps the state at a cut node."""
        cut = self.plan.cuts.get((frame.procedure, frame.node))
        if cut:
            self.keep(cut, {**dict(enumerate(frame.slots)), **self.entry_columns(frame)})

    def keep(self, predicate: Predicate, values: dict[int, int]) -> None:
        """Keeps a sample of a predicate."""
        samples = self.samples[predicate.name]
        if len(samples) < MAX_SAMPLES:
            samples.add(tuple(values[column] for column in predicate.columns))

    def entry_columns(self, frame: Frame) -> dict[int, int]:
        """The columns of a frame's entry values."""
        return {FIRST_ENTRY + i: value for i, value in enumerate(frame.entries)}

    def value(self) -> int:
        """A random input."""
        if self.random.random() < self.skew:
            return self.random.choice(self.small[:5])
        kind = self.random.random()
        if kind < 0.6:
            return self.random.choice(self.small)
        if kind < 0.9:
            return self.random.choice(self.constants)
        return self.random.randint(-100, 1000)

    def step(self, frames: list[Frame]) -> None:
        """One edge further in the innermost frame."""
        frame = frames[-1]
        ways = list(self.ways(frame))
        if not ways:
            raise Stopped
        edge = self.random.choice(ways)
        match edge:
            case Assign():
                value = edge.constant + sum(a * frame.slots[x] for x, a in edge.parts)
                self.put(frame, edge.slot, value)
            case Input():
                self.put(frame, edge.slot, self.value())
            case Pick():
                self.put(frame, edge.slot, self.picked(frame, edge))
            case Call():
                self.call(frames, edge)
                return
            case Return():
                self.leave(frames, edge)
                return
            case Assert():
                self.fail(frames, edge)
        frame.node = edge.target
        self.note(frame)

    def put(self, frame: Frame, slot: int, value: int) -> None:
        """A slot gets a value of 64 bits."""
        if not MIN_VALUE <= value <= MAX_VALUE:
            raise Stopped
        frame.slots[slot] = value

    def ways(self, frame: Frame) -> Iterator[Edge]:
        """The edges that may be taken."""
        for edge in self.out[frame.procedure].get(frame.node, []):
            if not isinstance(edge, Guard | Assert) or self.hold(edge.rows, frame.slots):
                yield edge

    def hold(self, rows: tuple[Atom, ...], slots: list[int]) -> bool:
        """Whether rows hold at slots."""
        return all(row.constant + sum(a * slots[x] for x, a in row.parts) <= 0 for row in rows)

    def picked(self, frame: Frame, edge: Pick) -> int:
        """The least value, or the greatest, with which the rows hold."""
        least, most = MIN_VALUE, MAX_VALUE
        for row in edge.rows:
            factor = row.coefficient(edge.slot)
            others = (a * frame.slots[x] for x, a in row.parts if x != edge.slot)
            rest = row.constant + sum(others)
            if factor > 0:
                most = min(most, -rest // factor)
            elif factor < 0:
                least = max(least, -(-rest // -factor))
        if least > most:
            raise Stopped
        return least if abs(least) < abs(most) else most

    def fail(self, frames: list[Frame], edge: Assert) -> NoReturn:
        """A run fails; so do all its frames, where it is the plan's assertion."""
        for frame in frames:
            failure = self.plan.failures.get(frame.procedure)
            if failure and edge.assertion == self.plan.assertion:
                self.keep(failure, self.entry_columns(frame))
        raise Stopped

    def call(self, frames: list[Frame], edge: Call) -> None:
        """A frame of the callee."""
        if len(frames) > MAX_DEPTH:
            raise Stopped
        frame = frames[-1]
        entries = tuple(frame.slots[slot] for slot in edge.arguments)
        frame.results, frame.node = edge.results, edge.target
        slots = [0] * self.graphs.graphs[edge.procedure].slots
        frames.append(self.begun(edge.procedure, entries, slots))

    def leave(self, frames: list[Frame], edge: Return) -> None:
        """The innermost frame returns."""
        frame = frames.pop()
        values = tuple(frame.slots[slot] for slot in edge.slots)
        returns = self.plan.returns.get(frame.procedure)
        if returns:
            exits = {FIRST_EXIT + i: value for i, value in enumerate(values)}
            self.keep(returns, {**self.entry_columns(frame), **exits})
        if not frames:
            raise Stopped
        caller = frames[-1]
        for slot, value in zip(caller.results, values):
            caller.slots[slot] = value
        self.note(caller)
