"""Certificates that no values of 64 bits meet a cube, and their check.

Rows are numbered from 0: the cube's atoms, the two range rows of each column that the cube names
(columns ascend), and then, down the branches, each node's derived rows and the bound of the side
that was taken.
"""

from collections.abc import Sequence
from dataclasses import dataclass

from outside.linear import (
    MAX_VALUE,
    MIN_VALUE,
    Atom,
    Term,
    ceiling,
    columns_of,
    combination,
    is_within,
    range_rows,
)

MAX_NESTING = 512
MAX_SUM = 2**127 - 1


@dataclass(frozen=True)
class Derived:
    """The sum of multiples of earlier rows, divided, with the constant rounded up."""

    parts: tuple[tuple[int, int], ...]
    divide: int
    row: Atom


@dataclass(frozen=True)
class Close:
    """Derived rows of which the last one is a contradiction."""

    derived: tuple[Derived, ...]


@dataclass(frozen=True)
class Branch:
    """Derived rows, and a certificate for each side: column <= at, and column >= at + 1."""

    derived: tuple[Derived, ...]
    column: int
    at: int
    low: "Certificate"
    high: "Certificate"


Certificate = Close | Branch


def at_most(column: int, bound: int) -> Atom:
    """column <= bound"""
    return Term(((column, 1),), -bound)


def at_least(column: int, bound: int) -> Atom:
    """column >= bound"""
    return Term(((column, -1),), bound)


def base_rows(atoms: Sequence[Atom]) -> list[Atom]:
    """The rows with which the numbering begins."""
    rows = list(atoms)
    for column in columns_of(atoms):
        rows.extend(range_rows(column))
    return rows


def _fits(number: int) -> bool:
    """Whether the number has 64 bits."""
    return MIN_VALUE <= number <= MAX_VALUE


def _sums_fit(rows: Sequence[Atom], parts: Sequence[tuple[int, int]]) -> bool:
    """Whether each product and each sum so far has 128 bits."""
    bound = sum(
        multiplier * max([abs(rows[n].constant), *(abs(a) for _, a in rows[n].parts)])
        for n, multiplier in parts
    )
    return bound <= MAX_SUM


def is_right_step(rows: Sequence[Atom], step: Derived) -> bool:
    """Whether the derived row follows from the rows before it."""
    for number, multiplier in step.parts:
        if not (0 <= number < len(rows) and 0 <= multiplier and _fits(multiplier)):
            return False
    if not (1 <= step.divide and _fits(step.divide) and is_within(step.row)):
        return False
    if not _sums_fit(rows, step.parts):
        return False
    total = combination((m, rows[n]) for n, m in step.parts)
    if any(a % step.divide for _, a in total.parts):
        return False
    parts = tuple((x, a // step.divide) for x, a in total.parts)
    return step.row == Term(parts, ceiling(total.constant, step.divide))


def _is_right(rows: list[Atom], certificate: Certificate, depth: int) -> bool:
    """Whether a certificate at this depth is right from these rows on."""
    if depth > MAX_NESTING:
        return False
    rows = list(rows)
    for step in certificate.derived:
        if not is_right_step(rows, step):
            return False
        rows.append(step.row)
    if isinstance(certificate, Close):
        last = certificate.derived[-1].row if certificate.derived else Term((), 0)
        return not last.parts and last.constant >= 1
    column, at = certificate.column, certificate.at
    return (
        MIN_VALUE <= at < MAX_VALUE
        and _is_right([*rows, at_most(column, at)], certificate.low, depth + 1)
        and _is_right([*rows, at_least(column, at + 1)], certificate.high, depth + 1)
    )


def refutes(atoms: Sequence[Atom], certificate: Certificate) -> bool:
    """Whether the certificate shows that no values of 64 bits meet the atoms."""
    return _is_right(base_rows(atoms), certificate, 0)


def used_rows(certificate: Certificate) -> set[int]:
    """The numbers that its steps name."""
    used = {number for step in certificate.derived for number, _ in step.parts}
    if isinstance(certificate, Branch):
        used |= used_rows(certificate.low) | used_rows(certificate.high)
    return used
