"""Whether integers of 64 bits meet a cube: a point that does, or a certificate that none do.

Rows are tightened first. Equalities replace a column, and then the column that costs least is
eliminated (Fourier and Motzkin), exact ones first. Only the rows that a point violates are taken,
so ranges come in where they are needed. Where no integer is between the bounds of a column, both
sides are solved.
"""

from collections.abc import Iterable, Sequence
from math import gcd

from outside.certificates import (
    Branch,
    Certificate,
    Close,
    Derived,
    at_least,
    at_most,
    base_rows,
)
from outside.linear import (
    MAX_COEFFICIENT,
    MAX_CONSTANT,
    MAX_VALUE,
    MIN_VALUE,
    Atom,
    Parts,
    Term,
    ceiling,
    divisor_of,
    value_of,
)

MAX_BRANCHES = 300
MAX_ROWS = 1500
MAX_SUMS = 40_000
FIRST_ROWS = 24


class SolverLimit(Exception):
    """Neither a point nor a certificate was found."""


class _Row:
    """A row with the rows that it is a sum of; one without parents has a number of its own."""

    __slots__ = ("parts", "constant", "parents", "divide", "number")

    def __init__(
        self,
        parts: Parts,
        constant: int,
        parents: tuple[tuple["_Row", int], ...],
        divide: int,
        number: int,
    ) -> None:
        self.parts = parts
        self.constant = constant
        self.parents = parents
        self.divide = divide
        self.number = number

    def coefficient(self, column: int) -> int:
        """The coefficient of a column."""
        for named, a in self.parts:
            if named == column:
                return a
        return 0

    def term(self) -> Term:
        """The row as a term."""
        return Term(self.parts, self.constant)


def _tight(row: _Row) -> _Row:
    """The row divided by the common divisor of its coefficients."""
    divisor = divisor_of(row.term())
    if divisor <= 1:
        return row
    parts = tuple((x, a // divisor) for x, a in row.parts)
    return _Row(parts, ceiling(row.constant, divisor), ((row, 1),), divisor, -1)


def _sum(first: _Row, times: int, second: _Row, by: int) -> _Row:
    """The sum of two multiples, tightened."""
    sums = {x: times * a for x, a in first.parts}
    for x, a in second.parts:
        sums[x] = sums.get(x, 0) + by * a
    constant = times * first.constant + by * second.constant
    parts = sorted((x, a) for x, a in sums.items() if a)
    divisor = gcd(*(a for _, a in parts)) or 1
    if divisor > 1:
        parts = [(x, a // divisor) for x, a in parts]
        constant = ceiling(constant, divisor)
    if abs(constant) > MAX_CONSTANT or any(abs(a) > MAX_COEFFICIENT for _, a in parts):
        raise SolverLimit("a row beyond the limits")
    return _Row(tuple(parts), constant, ((first, times), (second, by)), divisor, -1)


class _Rows:
    """Rows of which no two have the same coefficients: the strongest stays."""

    def __init__(self) -> None:
        self.by_parts: dict[Parts, _Row] = {}
        self.contradiction: _Row | None = None

    def add(self, row: _Row) -> None:
        """Keeps the row, unless a stronger one is there."""
        if not row.parts:
            if row.constant >= 1 and self.contradiction is None:
                self.contradiction = row
            return
        known = self.by_parts.get(row.parts)
        if known is None or known.constant < row.constant:
            self.by_parts[row.parts] = row
            self._oppose(row)

    def _oppose(self, row: _Row) -> None:
        """A row and its opposite may contradict each other."""
        if self.contradiction is None:
            other = self.by_parts.get(tuple((x, -a) for x, a in row.parts))
            if other is not None and other.constant + row.constant >= 1:
                self.contradiction = _sum(row, 1, other, 1)

    def equality(self) -> tuple[_Row, _Row, int] | None:
        """Two opposite rows that leave no room, and a column with the coefficient 1 or -1."""
        best = None
        for row in self.by_parts.values():
            other = self.by_parts.get(tuple((x, -a) for x, a in row.parts))
            if other is None or other.constant != -row.constant:
                continue
            columns = [x for x, a in row.parts if a == 1]
            if columns and (best is None or len(row.parts) < len(best[0].parts)):
                best = (row, other, columns[-1])
        return best


def _replace(rows: _Rows, upper: _Row, lower: _Row, column: int) -> tuple[_Rows, list[_Row]]:
    """The rows with an equality in the column's place, and those that named the column."""
    left = _Rows()
    named = [upper, lower]
    for row in rows.by_parts.values():
        a = row.coefficient(column)
        if a == 0:
            left.add(row)
        elif row is not upper and row is not lower:
            named.append(row)
            left.add(_sum(row, 1, lower, a) if a > 0 else _sum(row, 1, upper, -a))
    return left, named


def _cheapest(rows: _Rows) -> int:
    """The column whose elimination is exact, if there is one, and makes the fewest rows."""
    upper: dict[int, int] = {}
    lower: dict[int, int] = {}
    upper_units: dict[int, bool] = {}
    lower_units: dict[int, bool] = {}
    for parts in rows.by_parts:
        for x, a in parts:
            if a > 0:
                upper[x] = upper.get(x, 0) + 1
                upper_units[x] = upper_units.get(x, True) and a == 1
            else:
                lower[x] = lower.get(x, 0) + 1
                lower_units[x] = lower_units.get(x, True) and a == -1

    def cost(x: int) -> tuple[bool, int, int]:
        """What comes first is cheaper."""
        up, low = upper.get(x, 0), lower.get(x, 0)
        inexact = not (upper_units.get(x, True) or lower_units.get(x, True))
        return inexact, up * low - up - low, x

    return min(upper.keys() | lower.keys(), key=cost)


def _eliminate(rows: _Rows, column: int) -> tuple[_Rows, list[_Row], int]:
    """The rows without the column, those that named it, and how many sums were made."""
    left = _Rows()
    upper: list[tuple[_Row, int]] = []
    lower: list[tuple[_Row, int]] = []
    for row in rows.by_parts.values():
        a = row.coefficient(column)
        if a == 0:
            left.add(row)
        else:
            (upper if a > 0 else lower).append((row, abs(a)))
    for high, a in upper:
        for low, b in lower:
            divisor = gcd(a, b)
            left.add(_sum(high, b // divisor, low, a // divisor))
        if len(left.by_parts) > MAX_ROWS:
            raise SolverLimit("too many rows")
    named = [row for row, _ in upper] + [row for row, _ in lower]
    return left, named, len(upper) * len(lower)


def _bounds(rows: list[_Row], column: int, point: dict[int, int]) -> tuple[int | None, ...]:
    """The least and the greatest integer for the column, and the lower bound rounded down."""
    low: int | None = None
    high: int | None = None
    floor: int | None = None
    for row in rows:
        coefficient = 0
        rest = row.constant
        for x, a in row.parts:
            if x == column:
                coefficient = a
            else:
                rest += a * point[x]
        if coefficient > 0:
            bound = -rest // coefficient
            high = bound if high is None else min(high, bound)
        else:
            bound = ceiling(rest, -coefficient)
            low = bound if low is None else max(low, bound)
            below = rest // -coefficient
            floor = below if floor is None else max(floor, below)
    return low, high, floor


def _nearest(low: int | None, high: int | None) -> int:
    """The integer between the bounds that is nearest to 0."""
    if low is not None and low > 0:
        return low
    if high is not None and high < 0:
        return high
    return 0


class _Search:
    """The search for one cube."""

    def __init__(self, atoms: Sequence[Atom]) -> None:
        self.atoms = atoms
        self.base = base_rows(atoms)
        self.branches = 0
        self.sums = 0
        count = len(atoms)
        self.taken = list(range(max(0, count - FIRST_ROWS), count))

    def run(self, bounds: list[Atom]) -> Certificate | dict[int, int]:
        """A point, or a certificate below these bounds of branches."""
        while True:
            outcome = self.step(bounds)
            if isinstance(outcome, _Row):
                return Close(self.derivation(outcome, len(bounds)))
            if isinstance(outcome, tuple):
                return self.branch(bounds, *outcome)
            violated = self.violated(outcome)
            if not violated:
                return outcome
            self.taken.extend(violated)

    def violated(self, point: dict[int, int]) -> list[int]:
        """Some rows that the point violates; atoms come before ranges."""
        count = len(self.atoms)
        found = [n for n in range(count) if value_of(self.base[n], point) > 0]
        if not found:
            found = [n for n in range(count, len(self.base)) if value_of(self.base[n], point) > 0]
        return found[:4]

    def step(self, bounds: list[Atom]) -> "_Row | tuple[int, int] | dict[int, int]":
        """A contradiction, a column to branch at, or a point of the rows that are taken."""
        rows = _Rows()
        for number in self.taken:
            rows.add(self.given(self.base[number], number))
        for place, bound in enumerate(bounds):
            rows.add(self.given(bound, len(self.base) + place))
        eliminated: list[tuple[int, list[_Row]]] = []
        while rows.contradiction is None and rows.by_parts:
            equality = rows.equality()
            column = _cheapest(rows) if equality is None else equality[2]
            if equality is None:
                rows, named, sums = _eliminate(rows, column)
                self.sums += sums
                if self.sums > MAX_SUMS:
                    raise SolverLimit("too many sums")
            else:
                rows, named = _replace(rows, *equality)
            eliminated.append((column, named))
        if rows.contradiction is not None:
            return rows.contradiction
        return self.backwards(eliminated)

    def given(self, atom: Atom, number: int) -> _Row:
        """A row of the cube, or of a branch, tightened."""
        return _tight(_Row(atom.parts, atom.constant, (), 1, number))

    def backwards(
        self, eliminated: list[tuple[int, list[_Row]]]
    ) -> tuple[int, int] | dict[int, int]:
        """Values for the columns, the last one first, or where there is none."""
        names = {x for atom in self.atoms for x, _ in atom.parts}
        point = dict.fromkeys(names, 0)
        for column, named in reversed(eliminated):
            low, high, floor = _bounds(named, column, point)
            if low is not None and high is not None and floor is not None and low > high:
                return column, floor
            point[column] = _nearest(low, high)
        return point

    def branch(self, bounds: list[Atom], column: int, at: int) -> Certificate | dict[int, int]:
        """Solves both sides of a column."""
        self.branches += 1
        if self.branches > MAX_BRANCHES or len(bounds) >= 200:
            raise SolverLimit("too many branches")
        if not MIN_VALUE <= at < MAX_VALUE:
            raise SolverLimit("a branch beyond the values")
        low = self.run([*bounds, at_most(column, at)])
        if isinstance(low, dict):
            return low
        high = self.run([*bounds, at_least(column, at + 1)])
        if isinstance(high, dict):
            return high
        return Branch((), column, at, low, high)

    def derivation(self, last: _Row, bounds: int) -> tuple[Derived, ...]:
        """The derived rows that the last one needs, in order."""
        first = len(self.base) + bounds
        numbers: dict[int, int] = {}
        derived: list[Derived] = []
        for row in _ancestry(last):
            if row.number >= 0:
                numbers[id(row)] = row.number
                continue
            parts = _merged((numbers[id(parent)], times) for parent, times in row.parents)
            numbers[id(row)] = first + len(derived)
            derived.append(Derived(parts, row.divide, row.term()))
        if not derived:
            derived.append(Derived(((last.number, 1),), 1, last.term()))
        return tuple(derived)


def _merged(parts: Iterable[tuple[int, int]]) -> tuple[tuple[int, int], ...]:
    """Each row once."""
    sums: dict[int, int] = {}
    for number, times in parts:
        sums[number] = sums.get(number, 0) + times
    return tuple(sums.items())


def _ancestry(last: _Row) -> list[_Row]:
    """The rows that the last one is made of, each after its parents."""
    order: list[_Row] = []
    seen: set[int] = set()
    stack: list[tuple[_Row, bool]] = [(last, False)]
    while stack:
        row, ready = stack.pop()
        if ready:
            order.append(row)
        elif id(row) not in seen:
            seen.add(id(row))
            stack.append((row, True))
            stack.extend((parent, False) for parent, _ in row.parents)
    return order


def solve(atoms: Sequence[Atom]) -> Certificate | dict[int, int]:
    """A certificate, or a point that meets the atoms; raises `SolverLimit`."""
    return _Search(atoms).run([])
