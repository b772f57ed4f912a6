"""Preimages of cubes over edges, and what a call asks: row by row as the checker makes them."""

from collections.abc import Callable, Sequence
from math import gcd

from outside.graphs import Assert, Assign, Call, Edge, Entry, Guard, Input, Pick, Return
from outside.linear import (
    FIRST_ASKED,
    FIRST_ENTRY,
    FIRST_EXIT,
    MAX_VALUE,
    MIN_VALUE,
    Atom,
    Parts,
    Term,
    column_term,
    columns_of,
    combination,
    constant_term,
    equality,
    is_within,
    measured,
    range_rows,
    renamed,
    replaced,
    shown,
    substituted,
    tightened,
    TooWide,
)

MAX_ROWS = 4096


def reduced(rows: Sequence[Atom]) -> list[Atom]:
    """Of rows with the same coefficients the first one with the greatest constant, in its place."""
    greatest: dict[Parts, int] = {}
    for parts, constant in rows:
        if parts not in greatest or greatest[parts] < constant:
            greatest[parts] = constant
    stays: list[Atom] = []
    for row in rows:
        trivial = not row.parts and row.constant <= 0
        if not trivial and greatest.get(row.parts) == row.constant:
            del greatest[row.parts]
            stays.append(row)
    return stays


def after_column(rows: Sequence[Atom], column: int) -> list[Atom]:
    """The rows that are left when a column is eliminated."""
    upper = [(row, a) for row in rows if (a := row.coefficient(column)) > 0]
    lower = [(row, -a) for row in rows if (a := row.coefficient(column)) < 0]
    left = [row for row in rows if row.coefficient(column) == 0]
    for high, a in upper:
        for low, b in lower:
            divisor = gcd(a, b)
            total = combination([(b // divisor, high), (a // divisor, low)])
            if not is_within(total):
                raise TooWide(shown(total))
            left.append(tightened(total))
    left = reduced(left)
    if len(left) > MAX_ROWS:
        raise TooWide("too many rows")
    return left


def projected(columns: Sequence[int], atoms: Sequence[Atom]) -> list[Atom]:
    """The atoms without the columns, whose ranges are rows behind them."""
    rows = list(atoms)
    for column in columns:
        rows.extend(range_rows(column))
    for column in columns:
        rows = after_column(rows, column)
    return rows


def range_of(value: Term) -> list[Atom]:
    """The two rows of a sum's range."""
    return [combination([(1, value)], -MAX_VALUE), combination([(-1, value)], MIN_VALUE)]


def read_by(by: Callable[[int], Term | None], atoms: Sequence[Atom]) -> list[Atom]:
    """The atoms with terms in the places of columns."""
    return list(measured([substituted(atom, by) for atom in atoms]))


def entry_term(params: int) -> Callable[[int], Term | None]:
    """At the entry: entry values for parameters, and 0 for the other slots."""

    def by(column: int) -> Term | None:
        """The term for a column."""
        if column >= FIRST_ENTRY:
            return None
        return column_term(FIRST_ENTRY + column) if column < params else constant_term(0)

    return by


def _return_term(slots: Sequence[int]) -> Callable[[int], Term | None]:
    """Behind a return: the slots for exit values."""
    def by(column: int) -> Term | None:
        """The term for a column."""
        place = column - FIRST_EXIT
        return column_term(slots[place]) if 0 <= place < len(slots) else None

    return by


def preimage(edge: Edge, target: Sequence[Atom]) -> list[Atom]:
    """What holds of each state that goes over the edge into the target; no call."""
    match edge:
        case Entry():
            return read_by(entry_term(edge.params), target)
        case Assign():
            value = edge.value()
            measured([value])
            rows = [replaced(atom, {edge.slot: value}) for atom in target]
            return list(measured([*rows, *range_of(value)]))
        case Guard() | Assert():
            return [*target, *edge.rows]
        case Input():
            return projected([edge.slot], target)
        case Pick():
            return projected([edge.slot], [*target, *edge.rows])
        case Return():
            return read_by(_return_term(edge.slots), target)
        case Call():
            raise ValueError("a call has no preimage of its own")


def argument_columns(call: Call) -> dict[int, int]:
    """Each argument's slot by the column of its first place."""
    columns: dict[int, int] = {}
    for place, slot in enumerate(call.arguments):
        columns.setdefault(slot, FIRST_ASKED + place)
    return columns


def result_columns(call: Call) -> dict[int, int]:
    """Each result's slot by its exit value."""
    return {slot: FIRST_EXIT + place for place, slot in enumerate(call.results)}


def call_rows(
    call: Call, returns: bool, source: Sequence[Atom], target: Sequence[Atom]
) -> list[Atom]:
    """The rows of both regions over the caller's columns, arguments and exit values."""
    arguments = argument_columns(call)
    results = result_columns(call) if returns else {}
    behind = {**arguments, **results}
    rows = [renamed(atom, arguments) for atom in source]
    rows += [renamed(atom, behind) for atom in target]
    for place, slot in enumerate(call.arguments):
        first = arguments[slot]
        if first != FIRST_ASKED + place:
            rows += equality(column_term(FIRST_ASKED + place), column_term(first))
    return list(measured(rows))


def as_entry(rows: Sequence[Atom]) -> list[Atom]:
    """The rows with arguments as entry values."""
    shift = FIRST_ASKED - FIRST_ENTRY
    names = {x: x - shift for x in columns_of(rows) if x >= FIRST_ASKED}
    return [renamed(row, names) for row in rows]


def names_exit(atom: Atom) -> bool:
    """Whether the atom names an exit value."""
    return any(column >= FIRST_EXIT for column, _ in atom.parts)


def asked(
    call: Call, returns: bool, source: Sequence[Atom], target: Sequence[Atom]
) -> list[Atom]:
    """The query that a call asks: its start's rows, and then those of its end."""
    before = call_rows(call, returns, source, target)
    caller = [column for column in columns_of(before) if column < FIRST_EXIT]
    rows = as_entry(projected(caller, before))
    start = [row for row in rows if not names_exit(row)]
    end = [row for row in rows if names_exit(row)]
    return start + end


def free_preimage(edge: Edge, target: Sequence[Atom]) -> list[Atom]:
    """The preimage without rows of ranges."""
    match edge:
        case Input():
            return after_column(target, edge.slot)
        case Pick():
            return after_column([*target, *edge.rows], edge.slot)
        case Assign():
            return preimage(edge, target)[:-2]
    return preimage(edge, target)
