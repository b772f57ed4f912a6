"""What a source says of its assertions: their procedures, their texts, and the same source with one of them turned."""
import re
from collections.abc import Iterator
from typing import NamedTuple

from files.lexer import Fault, Lines
from files.parser import parse
from files.reports import Place
from files.tree import Block, Call, CallStatement, DoWhile, If, Loop, Statement


class Asserted(NamedTuple):
    """An assertion of a source: its procedure, its condition's text in one line, and that condition's span."""

    procedure: str
    text: str
    span: tuple[int, int]


def statements_in(it: Statement) -> Iterator[Statement]:
    """A statement and all that it holds, in the order of the text."""
    yield it
    parts: list[Statement | None] = []
    if isinstance(it, Block):
        parts = list(it.statements)
    elif isinstance(it, If):
        parts = [it.then, it.otherwise]
    elif isinstance(it, Loop):
        parts = [it.begin, it.step, it.body]
    elif isinstance(it, DoWhile):
        parts = [it.body]
    for part in parts:
        if part is not None:
            yield from statements_in(part)


def one_line(text: str) -> str:
    """A text with one blank for each stretch of white space, and without comments."""
    return " ".join(re.sub(r"//[^\n]*|/\*.*?\*/", " ", text, flags=re.S).split())


def assertions_of(text: bytes) -> dict[Place, Asserted]:
    """The assertions of an accepted source by their places; none where this reader can't read it."""
    source = text.decode("latin-1")
    try:
        tree = parse(source)
    except (Fault, RecursionError):
        return {}
    lines, found = Lines(source), {}
    for procedure in tree.procedures:
        for it in statements_in(procedure.body):
            if isinstance(it, CallStatement) and it.call.name == "assert":
                span = span_of(it.call)
                found[lines.place(it.span[0])] = Asserted(procedure.name, one_line(source[slice(*span)]), span)
    return found


def span_of(call: Call) -> tuple[int, int]:
    """The span of what stands between a call's parentheses."""
    return call.arguments[0].span[0], call.span[1] - 1


def with_failing(text: bytes, asserted: Asserted) -> bytes:
    """The source with 0 in place of an assertion's condition, and every other byte where it was."""
    start, end = asserted.span
    blank = re.sub(rb"[^\n]", b" ", text[start + 1: end])
    return text[:start] + b"0" + blank + text[end:]
