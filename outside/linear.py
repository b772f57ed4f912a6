"""Linear terms and atoms over numbered columns, with exact integers.

A term is a sum of parts and a constant. Its columns ascend, and no coefficient is 0, so that equal
sums are equal terms. An atom is a term that is read as `term <= 0`; a cube is a list of atoms that
all hold. The checker takes a row only within the limits below.
"""

from collections.abc import Callable, Iterable, Mapping, Sequence
from math import gcd
from typing import NamedTuple

FIRST_ENTRY = 10_000
FIRST_EXIT = 20_000
FIRST_SYMBOL = 30_000
FIRST_ASKED = 40_000

MIN_VALUE = -(2**63)
MAX_VALUE = 2**63 - 1

MAX_PARTS = 1024
MAX_COEFFICIENT = 2**40
MAX_CONSTANT = 2**84

Parts = tuple[tuple[int, int], ...]


class TooWide(Exception):
    """A row is beyond the limits of the checker."""


class Term(NamedTuple):
    """Columns with their coefficients, ascending, and a constant."""

    parts: Parts
    constant: int

    def coefficient(self, column: int) -> int:
        """The coefficient of a column, 0 where it isn't named."""
        for named, coefficient in self.parts:
            if named == column:
                return coefficient
        return 0

    def columns(self) -> list[int]:
        """The columns that it names, ascending."""
        return [column for column, _ in self.parts]


# A term that is read as `term <= 0`.
Atom = Term

# A disjunction of atoms.
Clause = tuple[Atom, ...]

Point = Mapping[int, int]


def constant_term(constant: int) -> Term:
    """A term without columns."""
    return Term((), constant)


def column_term(column: int) -> Term:
    """A column alone."""
    return Term(((column, 1),), 0)


def term_of(coefficients: Mapping[int, int], constant: int) -> Term:
    """The term with these coefficients; those that are 0 are left out."""
    parts = sorted((x, a) for x, a in coefficients.items() if a)
    return Term(tuple(parts), constant)


def combination(summands: Iterable[tuple[int, Term]], constant: int = 0) -> Term:
    """The sum of multiples of terms, and a constant."""
    sums: dict[int, int] = {}
    for multiplier, term in summands:
        for column, coefficient in term.parts:
            sums[column] = sums.get(column, 0) + multiplier * coefficient
        constant += multiplier * term.constant
    return term_of(sums, constant)


def negated(atom: Atom) -> Atom:
    """The atom that holds exactly where this one doesn't: 1 - t <= 0."""
    return Term(tuple((x, -a) for x, a in atom.parts), 1 - atom.constant)


def substituted(term: Term, by: Callable[[int], Term | None]) -> Term:
    """Terms in the places of columns, all at once; columns without a term stay."""
    sums: dict[int, int] = {}
    constant = term.constant
    for column, coefficient in term.parts:
        replacement = by(column)
        if replacement is None:
            sums[column] = sums.get(column, 0) + coefficient
            continue
        for named, factor in replacement.parts:
            sums[named] = sums.get(named, 0) + coefficient * factor
        constant += coefficient * replacement.constant
    return term_of(sums, constant)


def replaced(term: Term, by: Mapping[int, Term]) -> Term:
    """Terms in the places of the columns that are listed, all at once."""
    for column, _ in term.parts:
        if column in by:
            return substituted(term, by.get)
    return term


def renamed(term: Term, by: Mapping[int, int]) -> Term:
    """Columns by their new numbers, all at once; the others stay."""
    if not any(column in by for column, _ in term.parts):
        return term
    sums: dict[int, int] = {}
    for column, coefficient in term.parts:
        new = by.get(column, column)
        sums[new] = sums.get(new, 0) + coefficient
    return term_of(sums, term.constant)


def value_of(term: Term, point: Point) -> int:
    """The term's value; columns that the point doesn't name are 0."""
    return term.constant + sum(a * point.get(x, 0) for x, a in term.parts)


def holds(atom: Atom, point: Point) -> bool:
    """Whether the atom holds at the point."""
    return value_of(atom, point) <= 0


def holds_all(atoms: Iterable[Atom], point: Point) -> bool:
    """Whether all atoms hold at the point."""
    return all(value_of(atom, point) <= 0 for atom in atoms)


def ceiling(dividend: int, divisor: int) -> int:
    """The least integer that is not below the quotient, for a divisor above 0."""
    return -(-dividend // divisor)


def divisor_of(term: Term) -> int:
    """The greatest common divisor of the coefficients, 0 where there are none."""
    return gcd(*(a for _, a in term.parts))


def tightened(atom: Atom) -> Atom:
    """The atom divided by its coefficients' common divisor; the same integers meet it."""
    divisor = divisor_of(atom)
    if divisor <= 1:
        return atom
    parts = tuple((x, a // divisor) for x, a in atom.parts)
    return Term(parts, ceiling(atom.constant, divisor))


def columns_of(atoms: Iterable[Atom]) -> list[int]:
    """The columns that the atoms name, ascending."""
    return sorted({column for atom in atoms for column, _ in atom.parts})


def is_within(term: Term) -> bool:
    """Whether the term is within the limits of the checker."""
    return (
        len(term.parts) <= MAX_PARTS
        and abs(term.constant) <= MAX_CONSTANT
        and all(abs(a) <= MAX_COEFFICIENT for _, a in term.parts)
    )


def measured(terms: Sequence[Term]) -> Sequence[Term]:
    """The same terms, if each is within the limits."""
    for term in terms:
        if not is_within(term):
            raise TooWide(shown(term))
    return terms


def range_rows(column: int) -> tuple[Atom, Atom]:
    """The two rows of a column's range of 64 bits, the upper one first."""
    upper = Term(((column, 1),), -MAX_VALUE)
    lower = Term(((column, -1),), MIN_VALUE)
    return upper, lower


def equality(left: Term, right: Term) -> list[Atom]:
    """Two rows that hold together exactly where the terms are equal."""
    return [
        combination([(1, left), (-1, right)]),
        combination([(1, right), (-1, left)]),
    ]


def column_name(column: int) -> str:
    """A column's name in messages."""
    if column < FIRST_ENTRY:
        return f"s{column}"
    if column < FIRST_EXIT:
        return f"e{column - FIRST_ENTRY}"
    if column < FIRST_SYMBOL:
        return f"x{column - FIRST_EXIT}"
    return f"c{column}"


def shown(atom: Atom) -> str:
    """An atom for messages."""
    parts = [f"{a:+d}*{column_name(x)}" for x, a in atom.parts]
    return f"{' '.join(parts)} {atom.constant:+d} <= 0"
