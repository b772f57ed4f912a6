"""A C file in which a run that was found fails under gcc, for a debugger.

It is the source, changed where C means something else than the language: types of 64 bits, literals with `LL`, locals that
begin with 0, procedures that end with 0, operands and arguments from left to right (GNU C's statement expressions), and
`input()` that answers the list. A run that fails stops nowhere before, so nothing in it leaves the range.
"""
import os
import re
from itertools import count

from files.parser import parse
from files.source import statements_in
from files.tree import (
    Binary, Call, CallStatement, Declarator, Declare, DoWhile, Expression, File, If, Literal, Loop, Name, Parenthesis,
    Procedure, Return, Set, Span, Statement, Unary,
)

NUMBER = "long long"
PRELUDE = """\
/* {about}
   gcc -std=gnu11 -g THIS_FILE && ./a.out */
#include <assert.h>
#undef static_assert
#undef linux
#undef unix
static const long long smash_inputs[] = {{{values}}};
static int smash_used;
static long long input(void)
{{
    if (smash_used == {count}) __builtin_trap();
    return smash_inputs[smash_used++];
}}
static void assume(long long holds) {{ if (!holds) __builtin_trap(); }}
{prototypes}
"""


class Reproducer:
    """Turns one source."""

    def __init__(self, text: str) -> None:
        self.text = text
        self.tree: File = parse(text)
        self.numbers = count(1)
        self.edits: list[tuple[int, int, str]] = []
        self.procedures = {it.name: it for it in self.tree.procedures}

    def body(self) -> str:
        """The source, turned; its lines stay where they were."""
        for start, end in self.tree.prototypes:
            self.edit(start, end, "")
        main = self.procedures["main"].head
        for start, end in self.tree.types:
            if not any(first <= start < last for first, last in self.tree.prototypes):
                self.edit(start, end, "int" if main[0] <= start < main[1] else NUMBER)
        for it in self.tree.globals:
            self.edit(it.span[0], it.span[1], f"{self.variable(it.name)} = {literal(it.value)}")
        for procedure in self.tree.procedures:
            self.procedure(procedure)
        return re.sub(r"(?m)^[ \t]*#[^\n]*", "", self.edited())

    def edit(self, start: int, end: int, new: str) -> None:
        """Puts a text in place of a part of the source, with as many lines as were there."""
        self.edits.append((start, end, new + "\n" * (self.text.count("\n", start, end) - new.count("\n"))))

    def edited(self) -> str:
        """The source with all edits, which don't overlap."""
        parts, at = [], 0
        for start, end, new in sorted(self.edits, key=lambda it: it[:2]):
            parts += [self.text[at:start], new]
            at = end
        return "".join(parts) + self.text[at:]

    def variable(self, name: str) -> str:
        """A variable's name, which may be that of a procedure."""
        return f"{name}_variable" if name in self.procedures or name == "main" else name

    # Procedures and statements

    def procedure(self, it: Procedure) -> None:
        """A procedure ends with 0, if it gives a value."""
        for parameter in it.parameters:
            self.edit(parameter.span[1] - len(parameter.name), parameter.span[1], self.variable(parameter.name))
        for statement in statements_in(it.body):
            self.statement(statement, it)
        if not it.is_void:
            self.edit(it.body.span[1] - 1, it.body.span[1], "return 0; }")

    def statement(self, it: Statement, procedure: Procedure) -> None:
        """What a statement itself holds; those in it come by themselves."""
        if isinstance(it, Declare):
            for declarator in it.declarators:
                self.edit(*declarator.span, self.declarator(declarator))
        elif isinstance(it, Set):
            if it.value is not None:
                self.edit(*it.span, self.assignment(it))
            else:
                self.edit(it.name_offset, it.name_offset + len(it.name), self.variable(it.name))
        elif isinstance(it, CallStatement):
            self.expression(it.call)
        elif isinstance(it, (If, Loop, DoWhile)):
            if it.condition is not None:
                self.expression(it.condition)
        elif isinstance(it, Return):
            if it.value is not None:
                self.expression(it.value)
            elif not procedure.is_void:
                self.edit(*it.span, "return 0;")

    def declarator(self, it: Declarator) -> str:
        """A declarator; its initialiser doesn't see its name."""
        name = self.variable(it.name)
        if it.value is None:
            return f"{name} = 0"
        value = self.render(it.value)
        if not re.search(rf"\b{re.escape(name)}\b", value):
            return f"{name} = {value}"
        other = self.fresh()
        return f"{other} = {value}, {name} = {other}"

    def assignment(self, it: Set) -> str:
        """An assignment; in a change the old value is read before the expression is evaluated."""
        name = self.variable(it.name)
        assert it.value is not None
        value = self.render(it.value)
        if it.mark and has_call(it.value):
            other = self.fresh()
            return f"{name} = ({{ {NUMBER} {other} = {name}; {other} {it.mark} ({value}); }})"
        return f"{name} {it.mark}= {value}"

    def expression(self, it: Expression) -> None:
        """An expression that stands in a statement."""
        self.edit(*it.span, self.render(it))

    # Expressions

    def fresh(self) -> str:
        """A name of its own."""
        return f"smash_value_{next(self.numbers)}"

    def render(self, it: Expression) -> str:
        """An expression's text, with what stands between its parts as it was."""
        if isinstance(it, Literal):
            return literal(it.value)
        if isinstance(it, Name):
            return self.variable(it.name)
        if isinstance(it, Parenthesis):
            return self.joined(it.span, [it.inner])
        if isinstance(it, Unary):
            return self.joined(it.span, [it.operand])
        if isinstance(it, Call):
            return self.call(it)
        if it.mark not in ("&&", "||") and has_call(it.right) and not isinstance(it.left, Literal):
            other = self.fresh()
            return f"({{ {NUMBER} {other} = {self.render(it.left)}; {other} {it.mark} {self.render(it.right)}; }})"
        return self.joined(it.span, [it.left, it.right])

    def call(self, it: Call) -> str:
        """A call. Where a later argument calls something, all get names before."""
        if it.name == "assert" or len(it.arguments) < 2 or not any(has_call(part) for part in it.arguments[1:]):
            return self.joined(it.span, it.arguments)
        names = [self.fresh() for _ in it.arguments]
        values = [f"{NUMBER} {name} = {self.render(part)};" for name, part in zip(names, it.arguments)]
        return f"({{ {' '.join(values)} {it.name}({', '.join(names)}); }})"

    def joined(self, span: Span, parts: list[Expression]) -> str:
        """The text of a span with its parts rendered."""
        text, at = "", span[0]
        for part in parts:
            text += self.text[at: part.span[0]] + self.render(part)
            at = part.span[1]
        return text + self.text[at: span[1]]


def has_call(it: Expression) -> bool:
    """Whether something is called in an expression."""
    if isinstance(it, Call):
        return True
    if isinstance(it, Binary):
        return has_call(it.left) or has_call(it.right)
    if isinstance(it, Unary):
        return has_call(it.operand)
    return isinstance(it, Parenthesis) and has_call(it.inner)


def literal(value: int) -> str:
    """A literal of 64 bits."""
    return f"({value}LL)" if value < 0 else f"{value}LL"


def prototype(it: Procedure) -> str:
    """A procedure's prototype: it may be called before its definition."""
    parameters = ", ".join([NUMBER] * len(it.parameters)) or "void"
    return f"{'void' if it.is_void else NUMBER} {it.name}({parameters});"


def reproducer(name: str, text: bytes, place: tuple[int, int], inputs: tuple[int, ...]) -> bytes:
    """The C file for a list on which the assertion at a place fails."""
    turned = Reproducer(text.decode("latin-1"))
    quoted = name.replace("\\", "\\\\").replace('"', '\\"').replace("\n", "\\n")
    head = PRELUDE.format(
        about=f"The assertion of line {place[0]}, column {place[1]}, fails on these inputs.", count=len(inputs),
        values=", ".join(map(literal, inputs)) or "0",
        prototypes="\n".join(prototype(it) for it in turned.tree.procedures if it.name != "main"))
    line = b'#line 1 "' + os.fsencode(quoted) + b'"\n'
    return head.encode("ascii") + line + turned.body().encode("latin-1")
