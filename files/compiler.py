"""Compiles a program of the accepted language to closures; `files/machine.py` runs them."""
from collections.abc import Callable, Sequence

from files.lexer import Lines
from files.machine import (
    BROKEN, CONTINUED, GREATEST, LEAST, NORMAL, RETURNED, Body, Condition, Ended, Evaluate, Execute, Machine, Variable, Watcher,
)
from files.operators import OPERATORS, constant_value, quotient
from files.parser import parse
from files.tree import (
    Binary, Block, Call, CallStatement, Declare, DoWhile, Expression, If, Jump, Literal, Loop, Name, Parenthesis,
    Procedure, Return, Set, Statement, Unary, names_in,
)


def load(text: str, watcher: Watcher | None = None, ways: Callable[[Condition, bool], None] | None = None) -> Machine:
    """The program of a text, ready to run; `Fault` where the text doesn't fit. `ways` is told of conditions alone."""
    machine = Machine(parse(text), Lines(text), watcher, ways or (watcher.branched if watcher else None))
    for number, procedure in enumerate(machine.tree.procedures):
        machine.bodies[procedure.name] = Compiler(machine, procedure, number).body()
    return machine


class Compiler:
    """Compiles one procedure."""

    def __init__(self, machine: Machine, procedure: Procedure, number: int) -> None:
        self.machine, self.procedure = machine, procedure
        visible = {it.name: (True, at) for at, it in enumerate(machine.tree.globals) if it.first_procedure <= number}
        self.scopes: list[dict[str, Variable]] = [visible, {}]
        self.slots = 0
        for parameter in procedure.parameters:
            self.declare(parameter.name)

    def body(self) -> Body:
        """The compiled procedure. Its parameters and its block are one scope."""
        execute = self.sequence(self.procedure.body.statements)
        return Body(self.procedure, self.slots, execute)

    # Names

    def declare(self, name: str) -> Variable:
        """A new variable of the innermost scope."""
        self.scopes[-1][name] = (False, self.slots)
        self.slots += 1
        return self.scopes[-1][name]

    def variable(self, name: str) -> Variable:
        """What a name means here."""
        for scope in reversed(self.scopes):
            if name in scope:
                return scope[name]
        raise KeyError(name)

    def note(self, at: object, *parts: Expression | None) -> None:
        """Keeps for the watcher which variables a statement reads, and what the names mean there."""
        if self.machine.watcher:
            names = [it for part in parts if part for it in names_in(part)]
            self.machine.names[id(at)] = {it: self.variable(it) for it in names}

    # Expressions

    def expression(self, it: Expression) -> Evaluate:
        """The closure of an expression."""
        if isinstance(it, Parenthesis):
            return self.expression(it.inner)
        if isinstance(it, Unary) and it.mark == "+":
            return self.expression(it.operand)
        if isinstance(it, Literal):
            return self.constant(it.value)
        if isinstance(it, Name):
            return self.read(self.variable(it.name))
        if isinstance(it, Unary):
            return self.unary(it)
        if isinstance(it, Call):
            return self.call(it)
        return self.logical(it) if it.mark in ("&&", "||") else self.arithmetic(it)

    def constant(self, value: int) -> Evaluate:
        """A literal."""
        machine = self.machine

        def evaluate(_: list[int]) -> int:
            machine.left -= 1
            return value
        return evaluate

    def read(self, variable: Variable) -> Evaluate:
        """The value of a variable."""
        machine, (is_global, number) = self.machine, variable

        def local(slots: list[int]) -> int:
            machine.left -= 1
            return slots[number]

        def shared(_: list[int]) -> int:
            machine.left -= 1
            return machine.globals[number]
        return shared if is_global else local

    def unary(self, it: Unary) -> Evaluate:
        """`!` and `-`."""
        machine, operand = self.machine, self.expression(it.operand)

        def denied(slots: list[int]) -> int:
            machine.left -= 1
            return 0 if operand(slots) else 1

        def negated(slots: list[int]) -> int:
            machine.left -= 1
            value = -operand(slots)
            if value > GREATEST:
                raise Ended("stopped")
            return value
        return denied if it.mark == "!" else negated

    def call(self, it: Call) -> Evaluate:
        """A call of `input` or of a procedure; its arguments go from left to right."""
        self.note(it, *it.arguments)
        machine = self.machine
        arguments = [self.expression(part) for part in it.arguments]

        def taken(_: list[int]) -> int:
            machine.left -= 1
            value = machine.take()
            if machine.watcher:
                machine.watcher.took(it, value)
            return value

        def called(slots: list[int]) -> int:
            machine.left -= 1
            return machine.enter(machine.bodies[it.name], it, [argument(slots) for argument in arguments])
        return taken if it.name == "input" else called

    def logical(self, it: Binary) -> Evaluate:
        """`&&` and `||`: the right side is left out where the left one decides."""
        machine, left, right = self.machine, self.expression(it.left), self.expression(it.right)
        is_and = it.mark == "&&"

        def evaluate(slots: list[int]) -> int:
            machine.left -= 1
            if bool(left(slots)) != is_and:
                return 0 if is_and else 1
            return 1 if right(slots) else 0
        return evaluate

    def arithmetic(self, it: Binary, left: Evaluate | None = None) -> Evaluate:
        """The other binary operators. A divisor is a constant, and counts as one literal."""
        left = left or self.expression(it.left)
        if it.mark in "/%":
            right = self.constant(constant_value(it.right))
        else:
            right = self.expression(it.right)
        return applied(self.machine, it.mark, left, right)

    # Statements

    def statement(self, it: Statement) -> Execute:
        """The closure of a statement."""
        if isinstance(it, Block):
            return self.block(it)
        if isinstance(it, Declare):
            return self.declaration(it)
        if isinstance(it, Set):
            return self.assignment(it)
        if isinstance(it, CallStatement):
            return self.called(it)
        if isinstance(it, If):
            return self.choice(it)
        if isinstance(it, Loop):
            return self.loop(it)
        if isinstance(it, DoWhile):
            return self.do_while(it)
        if isinstance(it, Return):
            return self.result(it)
        return self.jump(it)

    def sequence(self, statements: Sequence[Statement]) -> Execute:
        """Statements one after the other, in the scope at hand."""
        parts = [self.statement(it) for it in statements]

        def execute(slots: list[int]) -> int:
            for part in parts:
                flow = part(slots)
                if flow:
                    return flow
            return NORMAL
        return execute

    def block(self, it: Block) -> Execute:
        """A block, which is a scope and a step."""
        self.scopes.append({})
        inner, machine = self.sequence(it.statements), self.machine
        self.scopes.pop()

        def execute(slots: list[int]) -> int:
            machine.left -= 1
            return inner(slots)
        return execute

    def declaration(self, it: Declare) -> Execute:
        """A declaration: an assignment for each of its names, which an initialiser doesn't see."""
        parts: list[Execute] = []
        for declarator in it.declarators:
            self.note(declarator, declarator.value)
            value = self.expression(declarator.value) if declarator.value else self.constant(0)
            parts.append(self.store(declarator, self.declare(declarator.name), value))

        def execute(slots: list[int]) -> int:
            for part in parts:
                part(slots)
            return NORMAL
        return execute

    def store(self, at: object, variable: Variable, value: Evaluate) -> Execute:
        """Gives a variable a value."""
        machine, (is_global, number) = self.machine, variable

        def execute(slots: list[int]) -> int:
            machine.left -= 1
            new = value(slots)
            (machine.globals if is_global else slots)[number] = new
            if machine.watcher:
                machine.watcher.assigned(at, variable, new)
            return NORMAL
        return execute

    def assignment(self, it: Set) -> Execute:
        """`x = e`, or `x = x + (e)` for the changes."""
        variable = self.variable(it.name)
        self.note(it, it.value, Name((it.name_offset, it.name_offset), it.name) if it.mark else None)
        if not it.mark and it.value:
            return self.store(it, variable, self.expression(it.value))
        right = it.value or Literal(it.span, 1)
        whole = Binary(it.span, it.mark, Name(it.span, it.name), right)
        return self.store(it, variable, self.arithmetic(whole, self.read(variable)))

    def called(self, it: CallStatement) -> Execute:
        """A call that stands as a statement; `assume` and `assert` among them."""
        self.note(it, *it.call.arguments)
        self.note(it.call, *it.call.arguments)
        machine = self.machine
        is_check = it.call.name in ("assume", "assert")
        value = self.expression(it.call.arguments[0]) if is_check else self.expression(it.call)
        place = machine.lines.place(it.span[0])

        def ignored(slots: list[int]) -> int:
            machine.left -= 1
            value(slots)
            return NORMAL

        def assumed(slots: list[int]) -> int:
            machine.left -= 1
            if not value(slots):
                raise Ended("stopped")
            return NORMAL

        def asserted(slots: list[int]) -> int:
            machine.left -= 1
            if not value(slots):
                if machine.watcher:
                    machine.watcher.failed(it.call)
                raise Ended("failed", place)
            return NORMAL
        return {"assume": assumed, "assert": asserted}.get(it.call.name, ignored)

    def choice(self, it: If) -> Execute:
        """An `if`; what is absent is an empty block."""
        self.note(it, it.condition)
        machine, condition = self.machine, self.expression(it.condition)
        then = self.statement(it.then)
        otherwise = self.statement(it.otherwise or Block(it.span, []))

        def execute(slots: list[int]) -> int:
            machine.left -= 1
            truth = condition(slots) != 0
            if machine.ways:
                machine.ways(it, truth)
            flow = then(slots) if truth else otherwise(slots)
            if machine.watcher:
                machine.watcher.joined(it)
            return flow
        return execute

    def loop(self, it: Loop) -> Execute:
        """`while`, and `for`, which is a scope, and a block where something begins it."""
        self.scopes.append({})
        begin = self.statement(it.begin) if it.begin else None
        if it.condition:
            self.note(it, it.condition)
        test = self.expression(it.condition) if it.condition else self.constant(1)
        step = self.statement(it.step or Block(it.span, []))
        turns = self.turns(it, test, step, self.statement(it.body))
        self.scopes.pop()
        machine = self.machine

        def execute(slots: list[int]) -> int:
            if begin:
                machine.left -= 1
                begin(slots)
            machine.left -= 1
            return turns(slots)
        return execute

    def turns(self, it: Loop, test: Evaluate, step: Execute, body: Execute) -> Execute:
        """The tests and turns of a loop."""
        machine = self.machine

        def execute(slots: list[int]) -> int:
            flow = NORMAL
            while flow == NORMAL:
                machine.spend()
                truth = test(slots) != 0
                if machine.ways and it.condition:
                    machine.ways(it, truth)
                if not truth:
                    break
                flow = body(slots)
                if flow in (NORMAL, CONTINUED):
                    flow = step(slots)
            if machine.watcher:
                machine.watcher.joined(it)
            return RETURNED if flow == RETURNED else NORMAL
        return execute

    def do_while(self, it: DoWhile) -> Execute:
        """A loop that tests behind its body."""
        self.note(it, it.condition)
        machine, body, test = self.machine, self.statement(it.body), self.expression(it.condition)

        def execute(slots: list[int]) -> int:
            machine.left -= 1
            truth, flow = True, NORMAL
            while truth and flow == NORMAL:
                flow = body(slots)
                if flow in (NORMAL, CONTINUED):
                    flow = NORMAL
                    machine.spend()
                    truth = test(slots) != 0
                    if machine.ways:
                        machine.ways(it, truth)
            if machine.watcher:
                machine.watcher.joined(it)
            return RETURNED if flow == RETURNED else NORMAL
        return execute

    def jump(self, it: Jump) -> Execute:
        """`break` and `continue`."""
        machine, flow = self.machine, BROKEN if it.word == "break" else CONTINUED

        def execute(_: list[int]) -> int:
            machine.left -= 1
            return flow
        return execute

    def result(self, it: Return) -> Execute:
        """`return`, which gives 0 where no value stands."""
        self.note(it, it.value)
        machine = self.machine
        value = self.expression(it.value) if it.value else None

        def execute(slots: list[int]) -> int:
            machine.left -= 1
            machine.value = value(slots) if value else 0
            if machine.watcher:
                machine.watcher.returns(it)
            return RETURNED
        return execute


def applied(machine: Machine, mark: str, left: Evaluate, right: Evaluate) -> Evaluate:
    """An operator on both its operands, from left to right; the run stops where there is no value in the range."""
    operator = OPERATORS[mark]

    def evaluate(slots: list[int]) -> int:
        machine.left -= 1
        value = operator(left(slots), right(slots))
        if not LEAST <= value <= GREATEST:
            raise Ended("stopped")
        return value

    def remainder(slots: list[int]) -> int:
        machine.left -= 1
        dividend, divisor = left(slots), right(slots)
        whole = quotient(dividend, divisor)
        if whole > GREATEST:
            raise Ended("stopped")
        return dividend - divisor * whole
    return remainder if mark == "%" else evaluate
