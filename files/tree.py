"""The syntax tree of the accepted language. A span is the offsets of a node's first byte and of the byte behind it."""
from collections.abc import Sequence
from dataclasses import dataclass, field

Span = tuple[int, int]


@dataclass(eq=False, slots=True)
class Literal:
    """A constant."""

    span: Span
    value: int


@dataclass(eq=False, slots=True)
class Name:
    """The value of a variable."""

    span: Span
    name: str


@dataclass(eq=False, slots=True)
class Call:
    """A call, also of `input`, `assume` and `assert`."""

    span: Span
    name: str
    arguments: list["Expression"]


@dataclass(eq=False, slots=True)
class Unary:
    """`!`, `-` or `+` and its operand."""

    span: Span
    mark: str
    operand: "Expression"


@dataclass(eq=False, slots=True)
class Binary:
    """A binary operator and its operands. The span leaves out parentheses around the whole."""

    span: Span
    mark: str
    left: "Expression"
    right: "Expression"


@dataclass(eq=False, slots=True)
class Parenthesis:
    """An expression in parentheses."""

    span: Span
    inner: "Expression"


Expression = Literal | Name | Call | Unary | Binary | Parenthesis


@dataclass(eq=False, slots=True)
class Declarator:
    """A declared variable with its initialiser, if any."""

    span: Span
    name: str
    value: Expression | None


@dataclass(eq=False, slots=True)
class Declare:
    """A declaration of variables."""

    span: Span
    declarators: list[Declarator]


@dataclass(eq=False, slots=True)
class Set:
    """`x = e`, and `x += e` and the like, where `mark` is the operator. `x++` is `x += 1`, with no expression."""

    span: Span
    name: str
    name_offset: int
    mark: str
    value: Expression | None


@dataclass(eq=False, slots=True)
class CallStatement:
    """A call that stands as a statement."""

    span: Span
    call: Call


@dataclass(eq=False, slots=True)
class Block:
    """Statements in braces; `;` is one without any."""

    span: Span
    statements: list["Statement"]


@dataclass(eq=False, slots=True)
class If:
    """`if`, with or without an `else`."""

    span: Span
    condition: Expression
    then: "Statement"
    otherwise: "Statement | None"


@dataclass(eq=False, slots=True)
class Loop:
    """`while` and `for`: what begins it, its test (none: always), its step and its body."""

    span: Span
    begin: "Declare | Set | CallStatement | None"
    condition: Expression | None
    step: "Set | CallStatement | None"
    body: "Statement"
    is_for: bool


@dataclass(eq=False, slots=True)
class DoWhile:
    """A loop that tests behind its body."""

    span: Span
    body: "Statement"
    condition: Expression


@dataclass(eq=False, slots=True)
class Jump:
    """`break` or `continue`."""

    span: Span
    word: str


@dataclass(eq=False, slots=True)
class Return:
    """`return`, with or without a value."""

    span: Span
    value: Expression | None


Statement = Declare | Set | CallStatement | Block | If | Loop | DoWhile | Jump | Return


@dataclass(eq=False, slots=True)
class Parameter:
    """A parameter of a procedure."""

    span: Span
    name: str


@dataclass(eq=False, slots=True)
class Procedure:
    """A procedure; `head` is the span from its type to the end of its name."""

    span: Span
    head: Span
    name: str
    name_offset: int
    is_void: bool
    parameters: list[Parameter]
    body: Block


@dataclass(eq=False, slots=True)
class Global:
    """A global with its opening value. The procedures from `first_procedure` on may name it."""

    span: Span
    name: str
    value: int
    first_procedure: int


@dataclass(eq=False, slots=True)
class File:
    """A source: its procedures and globals in order, and where its prototypes and its type words stand."""

    procedures: list[Procedure] = field(default_factory=list)
    globals: list[Global] = field(default_factory=list)
    prototypes: list[Span] = field(default_factory=list)
    types: list[Span] = field(default_factory=list)
    literals: list[Span] = field(default_factory=list)


def names_in(it: Expression) -> list[str]:
    """The variables that an expression names, each once, in order."""
    if isinstance(it, Name):
        return [it.name]
    if isinstance(it, Parenthesis):
        parts: Sequence[Expression] = [it.inner]
    elif isinstance(it, Unary):
        parts = [it.operand]
    elif isinstance(it, Binary):
        parts = [it.left, it.right]
    else:
        parts = it.arguments if isinstance(it, Call) else []
    return list(dict.fromkeys(name for part in parts for name in names_in(part)))
