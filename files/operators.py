"""What operators give, over all integers."""
from collections.abc import Callable

from files.tree import Binary, Expression, Literal, Parenthesis, Unary


def quotient(left: int, right: int) -> int:
    """The quotient, rounded toward zero."""
    magnitude = abs(left) // abs(right)
    return magnitude if (left < 0) == (right < 0) else -magnitude


OPERATORS: dict[str, Callable[[int, int], int]] = {
    "+": lambda x, y: x + y, "-": lambda x, y: x - y, "*": lambda x, y: x * y, "/": quotient, "%": quotient,
    "<": lambda x, y: int(x < y), "<=": lambda x, y: int(x <= y), ">": lambda x, y: int(x > y),
    ">=": lambda x, y: int(x >= y), "==": lambda x, y: int(x == y), "!=": lambda x, y: int(x != y),
}


def constant_value(it: Expression) -> int:
    """The value of an expression of literals."""
    if isinstance(it, Parenthesis):
        return constant_value(it.inner)
    if isinstance(it, Unary):
        return constant_value(it.operand) * (-1 if it.mark == "-" else 1)
    if isinstance(it, Binary):
        return OPERATORS[it.mark](constant_value(it.left), constant_value(it.right))
    if isinstance(it, Literal):
        return it.value
    raise ValueError("not a constant")
