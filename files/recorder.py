"""Records a run step by step, and on which earlier steps each step depends.

A step depends on the steps that set the variables which it reads, on the inputs and the calls in it, and on the condition
or the call that let it come: a dynamic slice, in which a side that `&&` or `||` leaves out counts as read, and the test of
a loop doesn't depend on the tests before it.
"""
from dataclasses import dataclass, field

from files.machine import Condition, Machine, Variable, Watcher
from files.source import one_line, statements_in
from files.tree import Call, Declarator, Expression, If, Jump, Parenthesis, Procedure, Return, Set, Span

# Steps that are kept of one run; a longer run has no trace.
MOST = 200_000


class TooLong(Exception):
    """The run has more steps than a trace can have."""


@dataclass(slots=True)
class Event:
    """A step: where it stands, what happened, the number of the input that it took, and the steps that it depends on."""

    offset: int
    text: str
    input: int
    needs: set[int]


@dataclass(slots=True)
class Frame:
    """A call that hasn't ended: its slots and the steps that set them, what its expression took, what let it come here."""

    procedure: Procedure
    slots: list[int]
    call: Call | None = None
    set_by: dict[Variable, int] = field(default_factory=dict)
    taken: list[tuple[int, int]] = field(default_factory=list)
    control: set[int] = field(default_factory=set)
    opened: list[tuple[Condition, set[int]]] = field(default_factory=list)
    result: int | None = None


class Recorder(Watcher):
    """Watches one run of the machine that it is given."""

    def __init__(self, text: str) -> None:
        self.text = text
        self.machine: Machine | None = None
        self.events: list[Event] = []
        self.frames: list[Frame] = []
        self.globals_set_by: dict[Variable, int] = {}
        self.escapes: dict[int, bool] = {}

    # Steps

    def names(self, at: object) -> dict[str, Variable]:
        """What the names mean that a node reads."""
        return self.machine.names.get(id(at), {}) if self.machine else {}

    def needs(self, at: object, span: Span) -> set[int]:
        """The steps that a node depends on. An input or a call belongs to it by its place."""
        frame = self.frames[-1]
        setters = (frame.set_by.get(it, self.globals_set_by.get(it)) for it in self.names(at).values())
        return {it for it in setters if it is not None} | self.taken_in(span) | frame.control

    def taken_in(self, span: Span) -> set[int]:
        """The inputs and the results of calls that an expression took."""
        return {number for offset, number in self.frames[-1].taken if span[0] <= offset < span[1]}

    def add(self, offset: int, text: str, needs: set[int], number: int = 0) -> int:
        """A new step, and where it stands among the steps."""
        if len(self.events) >= MOST:
            raise TooLong
        self.events.append(Event(offset, text, number, needs))
        return len(self.events) - 1

    def condition(self, span: Span, at: object, truth: bool) -> str:
        """What a condition says, on one line."""
        return f"{one_line(self.text[slice(*span)])} is {'true' if truth else 'false'}"

    # What is told

    def entered(self, procedure: Procedure, call: Call | None, slots: list[int]) -> None:
        frame = Frame(procedure, slots, call)
        if call is not None:
            arguments = ", ".join(f"{it.name} = {value}" for it, value in zip(procedure.parameters, slots))
            number = self.add(call.span[0], f"{procedure.name}({arguments})", self.needs(call, call.span))
            frame.set_by = {(False, at): number for at in range(len(procedure.parameters))}
            frame.control = {number}
        self.frames.append(frame)

    def left(self, procedure: Procedure, value: int) -> None:
        frame = self.frames.pop()
        if self.frames and frame.call is not None and frame.result is not None:
            self.frames[-1].taken.append((frame.call.span[0], frame.result))

    def took(self, call: Call, value: int) -> None:
        frame, number = self.frames[-1], self.machine.used if self.machine else 0
        step = self.add(call.span[0], f"input {number} is {value}", set(frame.control), number)
        frame.taken.append((call.span[0], step))

    def assigned(self, at: object, variable: Variable, value: int) -> None:
        assert isinstance(at, (Declarator, Set))
        frame, text = self.frames[-1], f"{at.name} = {value}"
        if is_input(at) and frame.taken:
            step = frame.taken[-1][1]
            self.events[step].text, self.events[step].offset = text, at.span[0]
        else:
            step = self.add(at.span[0], text, self.needs(at, at.span))
        frame.taken.clear()
        (self.globals_set_by if variable[0] else frame.set_by)[variable] = step

    def branched(self, at: Condition, truth: bool) -> None:
        frame, condition = self.frames[-1], at.condition
        assert condition is not None
        if not self.names(at) and not self.taken_in(condition.span):
            return
        if not frame.opened or frame.opened[-1][0] is not at:
            frame.opened.append((at, frame.control))
        elif not self.may_escape(at):
            frame.control = frame.opened[-1][1]
        step = self.add(condition.span[0], self.condition(condition.span, at, truth), self.needs(at, condition.span))
        frame.taken.clear()
        frame.control = {step}

    def joined(self, at: Condition) -> None:
        frame = self.frames[-1]
        if frame.opened and frame.opened[-1][0] is at:
            _, before = frame.opened.pop()
            if not self.may_escape(at):
                frame.control = before

    def returns(self, at: Return) -> None:
        frame = self.frames[-1]
        if at.value is not None and frame.call is not None and self.machine:
            text = f"{frame.procedure.name} gives {self.machine.value}"
            frame.result = self.add(at.span[0], text, self.needs(at, at.span))

    def failed(self, call: Call) -> None:
        frame, names = self.frames[-1], self.names(call)
        span = (call.arguments[0].span[0], call.span[1] - 1)
        shared = self.machine.globals if self.machine else []
        values = [f"{name} = {(shared if it[0] else frame.slots)[it[1]]}" for name, it in names.items()]
        told = f", where {', '.join(values)}" if values else ""
        self.add(call.span[0], self.condition(span, call, False) + told, self.needs(call, call.span))

    def may_escape(self, at: Condition) -> bool:
        """Whether a jump among a condition's statements decides what comes behind them."""
        if id(at) not in self.escapes:
            parts = list(statements_in(at))
            jumps = isinstance(at, If) and any(isinstance(it, Jump) for it in parts)
            self.escapes[id(at)] = jumps or any(isinstance(it, Return) for it in parts)
        return self.escapes[id(at)]

    # What is asked

    def slice(self) -> list[int]:
        """The steps on which the last one depends, and those that took an input, in order."""
        wanted = {len(self.events) - 1} if self.events else set()
        waiting = list(wanted)
        while waiting:
            for need in self.events[waiting.pop()].needs - wanted:
                wanted.add(need)
                waiting.append(need)
        return [at for at, it in enumerate(self.events) if at in wanted or it.input]


def is_input(at: Declarator | Set) -> bool:
    """Whether a variable gets an input as it is."""
    value: Expression | None = at.value
    while isinstance(value, Parenthesis):
        value = value.inner
    return isinstance(value, Call) and value.name == "input" and not (isinstance(at, Set) and at.mark)
