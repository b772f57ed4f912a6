"""S-expressions: the form of what z3 prints."""

import re

MAX_DEPTH = 1_500

Expression = str | list["Expression"]

_TOKEN = re.compile(r'\s+|;[^\n]*|([()])|\|([^|]*)\||"(?:[^"]|"")*"|([^\s()|;"]+)')


class Unreadable(Exception):
    """What can't be read as clauses of linear atoms, or as a text of z3 at all."""


def expressions(text: str) -> list[Expression]:
    """All expressions of a text."""
    stack: list[list[Expression]] = [[]]
    at = 0
    while at < len(text):
        token = _TOKEN.match(text, at)
        if token is None:
            raise Unreadable("a byte that no text of z3 has")
        at = token.end()
        bracket, quoted, word = token.groups()
        if bracket == "(":
            stack.append([])
            if len(stack) > MAX_DEPTH:
                raise Unreadable("nested too deep")
        elif bracket == ")":
            _close(stack)
        elif quoted is not None or word is not None:
            stack[-1].append(quoted if word is None else word)
    if len(stack) != 1:
        raise Unreadable("a bracket that isn't closed")
    return stack[0]


def _close(stack: list[list[Expression]]) -> None:
    done = stack.pop()
    if not stack:
        raise Unreadable("a bracket that wasn't opened")
    stack[-1].append(done)


def words_of(expression: Expression) -> set[str]:
    """All words that stand in an expression."""
    words: set[str] = set()
    waiting = [expression]
    while waiting:
        item = waiting.pop()
        if isinstance(item, str):
            words.add(item)
        else:
            waiting.extend(item)
    return words


def expression_text(expression: Expression) -> str:
    """The text of an expression."""
    if isinstance(expression, str):
        return expression
    return f"({' '.join(map(expression_text, expression))})"
