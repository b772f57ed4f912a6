"""Clauses that may be invariants: bounds of terms that samples keep, and such bounds under conditions."""

from collections.abc import Iterable, Sequence
from dataclasses import dataclass
from itertools import combinations
from math import gcd, lcm

from outside.linear import (
    Atom,
    Clause,
    Term,
    column_term,
    combination,
    negated,
    tightened,
    value_of,
)
from outside.plan import Predicate
from outside.rules import Rule
from outside.walks import Sample

MAX_CANDIDATES = 2_500
MAX_SAMPLES = 300
MAX_EQUAL_SAMPLES = 60
MAX_VALUES = 8
MAX_TERMS = 400
WIDE = 1_000_000


@dataclass(frozen=True)
class Condition:
    """A column has a value: the literals that say the opposite, and the samples that meet it."""

    column: int
    otherwise: tuple[Atom, ...]
    samples: frozenset[int]


@dataclass(frozen=True)
class Extremes:
    """The least and greatest values of terms at some samples."""

    least: list[int]
    most: list[int]


def at_most(term: Term, bound: int) -> Atom:
    """The atom `term <= bound`."""
    return combination([(1, term)], -bound)


def at_least(term: Term, bound: int) -> Atom:
    """The atom `term >= bound`."""
    return combination([(-1, term)], bound)


def row_terms(predicate: Predicate, rules: Iterable[Rule]) -> list[Term]:
    """The terms of guards over a predicate's columns alone, and with one column more."""
    columns = set(predicate.columns)
    found: dict[Term, None] = {}
    for rule in rules:
        for guard in rule.guards:
            term = tightened(Term(guard.parts, 0))
            if len(term.parts) > 1 and columns.issuperset(term.columns()):
                found[term if term.parts[0][1] > 0 else combination([(-1, term)])] = None
    more = [
        combination([(1, term), (sign, column_term(column))])
        for term in list(found)[:8]
        for column in predicate.columns
        for sign in (1, -1)
    ]
    return [*found, *more]


def pair_terms(columns: Sequence[int]) -> list[Term]:
    """Sums and differences of two columns."""
    pairs = combinations(map(column_term, columns), 2)
    return [combination([(1, a), (sign, b)]) for a, b in pairs for sign in (1, -1)]


def equalities(columns: Sequence[int], samples: Sequence[Sample]) -> list[Term]:
    """Terms that are 0 at all samples: a basis of them, by elimination."""
    rows: list[tuple[int, list[int]]] = []
    for sample in samples:
        row = [1, *sample]
        for lead, other in rows:
            row = _eliminated(row, other, lead)
        lead = next((i for i, x in enumerate(row) if x), None)
        if lead is not None:
            rows = [(at, _eliminated(other, row, lead)) for at, other in rows] + [(lead, row)]
        if len(rows) > len(columns):
            return []
    leads = {lead for lead, _ in rows}
    free = [i for i in range(len(columns) + 1) if i not in leads]
    return [_solution(columns, rows, i) for i in free]


def _eliminated(row: list[int], by: list[int], lead: int) -> list[int]:
    """A row less a multiple of another one, so that its number at a place is 0."""
    if not row[lead]:
        return row
    factor, other = by[lead], row[lead]
    difference = [factor * x - other * y for x, y in zip(row, by)]
    divisor = gcd(*difference) or 1
    return [x // divisor for x in difference]


def _solution(columns: Sequence[int], rows: list[tuple[int, list[int]]], free: int) -> Term:
    """The term with one free coefficient, without fractions."""
    factor = lcm(*(row[lead] for lead, row in rows))
    values = [0] * (len(columns) + 1)
    values[free] = factor
    for lead, row in rows:
        values[lead] = -row[free] * factor // row[lead]
    divisor = gcd(*values) or 1
    constant, *coefficients = (value // divisor for value in values)
    parts = sorted((x, a) for x, a in zip(columns, coefficients) if a)
    return Term(tuple(parts), constant)


class Candidates:
    """The candidates of a predicate."""

    def __init__(
        self,
        predicate: Predicate,
        samples: set[Sample],
        rules: Sequence[Rule],
        constants: Sequence[int],
    ) -> None:
        self.name = predicate.name
        self.columns = predicate.columns
        self.rules = rules
        ordered = sorted(samples)
        self.samples = ordered[:: len(ordered) // MAX_SAMPLES + 1]
        self.constants = sorted(constants)
        points = [dict(zip(self.columns, sample)) for sample in self.samples]
        self.found: dict[Clause, None] = {}
        self.terms = [*map(column_term, self.columns)]
        self.values = [[point[x] for point in points] for x in self.columns]
        self.all_conditions = [c for i in range(len(self.columns)) for c in self.conditions(i)]
        more = [*self.conditional_equalities(), *row_terms(predicate, rules)]
        self.few = len(self.columns) + len(dict.fromkeys(more))
        if len(self.columns) <= 14:
            more += pair_terms(self.columns)
        self.terms += [term for term in dict.fromkeys(more) if term.parts][:MAX_TERMS]
        new = self.terms[len(self.columns) :]
        self.values += [[value_of(term, point) for point in points] for term in new]

    def conditional_equalities(self) -> list[Term]:
        """What is equal at the samples of some condition."""
        found: list[Term] = []
        for condition in self.all_conditions:
            chosen = sorted(condition.samples)
            samples = [self.samples[i] for i in chosen[:: len(chosen) // MAX_EQUAL_SAMPLES + 1]]
            if len(samples) > 3:
                terms = equalities(self.columns, samples)
                found += [Term(t.parts, 0) for t in terms if len(t.parts) > 2]
        return found[:60]

    def escapes(self) -> None:
        """What must hold where a rule that fails begins at this predicate."""
        columns = set(self.columns)
        for rule in self.rules:
            fails = rule.head is not None and rule.head[0].startswith("f")
            here = len(rule.body) == 1 and rule.body[0][0] == self.name
            if fails and here and columns.issuperset(rule.columns()):
                self.add(tuple(negated(guard) for guard in rule.guards))

    def clauses(self, wide: bool) -> list[Clause]:
        """All candidates, without samples the empty clause alone.

        Under conditions there are the bounds of columns and of what is equal somewhere, and the
        `wide` ones are those of sums and differences too, and those under two conditions.
        """
        if not self.samples:
            return [()]
        self.escapes()
        everywhere = frozenset(range(len(self.samples)))
        for term in equalities(self.columns, self.samples):
            self.add((term,))
            self.add((combination([(-1, term)]),))
        whole = self.extremes(everywhere, len(self.terms))
        self.bounds((), whole, [])
        self.constant_bounds()
        single = []
        for condition in self.all_conditions:
            terms = len(self.terms) if wide else self.few
            single.append(self.extremes(condition.samples, terms))
            self.bounds(condition.otherwise, single[-1], [whole])
        if wide:
            self.pairs_of_conditions(single)
        return list(self.found)

    def pairs_of_conditions(self, single: list[Extremes]) -> None:
        """Bounds of columns under two conditions, while there is room."""
        for (first, near), (second, far) in combinations(zip(self.all_conditions, single), 2):
            if len(self.found) >= MAX_CANDIDATES:
                return
            if first.column != second.column:
                self.both(first, second, [near, far])

    def extremes(self, samples: frozenset[int], terms: int) -> Extremes:
        """The extremes of the first terms at some samples."""
        chosen = [[values[i] for i in samples] for values in self.values[:terms]]
        return Extremes([*map(min, chosen)], [*map(max, chosen)])

    def add(self, clause: Clause) -> None:
        """One candidate more, while there is room."""
        if len(self.found) < MAX_CANDIDATES:
            self.found[clause] = None

    def both(self, first: Condition, second: Condition, wider: list[Extremes]) -> None:
        """Bounds of columns under two conditions."""
        common = first.samples & second.samples
        otherwise = first.otherwise + second.otherwise
        if common:
            self.bounds(otherwise, self.extremes(common, len(self.columns)), wider)
        else:
            self.add(otherwise)

    def bounds(
        self, otherwise: tuple[Atom, ...], narrow: Extremes, wider: list[Extremes]
    ) -> None:
        """The bounds of terms at some samples, where they are tighter than at the wider ones."""
        for i, (least, most) in enumerate(zip(narrow.least, narrow.most)):
            if abs(most) < WIDE and all(wide.most[i] > most for wide in wider):
                self.add((*otherwise, at_most(self.terms[i], most)))
            if abs(least) < WIDE and all(wide.least[i] < least for wide in wider):
                self.add((*otherwise, at_least(self.terms[i], least)))

    def constant_bounds(self) -> None:
        """Bounds of columns by constants of the program, a little wider than the samples."""
        for term, values in zip(self.terms[: len(self.columns)], self.values):
            above = [c for c in self.constants if c > max(values)][:3]
            below = [c for c in self.constants if c < min(values)][-3:]
            for bound in above:
                self.add((at_most(term, bound),))
            for bound in below:
                self.add((at_least(term, bound),))

    def conditions(self, number: int) -> list[Condition]:
        """A column with few values has each of them; another one is at its least value, or above."""
        values = self.values[number]
        distinct = sorted(set(values))
        least, most = distinct[0], distinct[-1]
        if least == most:
            return []
        column = self.columns[number]
        if len(distinct) <= MAX_VALUES:
            return [self.condition(column, values, v, v, least, most) for v in distinct]
        spans = {(least, least), (least + 1, most)}
        for bound in (-1, 0, 1):
            spans |= {(least, bound), (bound, most), (bound, bound)}
        return [
            self.condition(column, values, low, high, least, most)
            for low, high in sorted(spans)
            if any(low <= value <= high for value in distinct) and (low, high) != (least, most)
        ]

    def condition(
        self, column: int, values: list[int], low: int, high: int, least: int, most: int
    ) -> Condition:
        """A column is from one value to another one."""
        below = (at_most(column_term(column), low - 1),) if low > least else ()
        above = (at_least(column_term(column), high + 1),) if high < most else ()
        samples = frozenset(i for i, value in enumerate(values) if low <= value <= high)
        return Condition(column, below + above, samples)
