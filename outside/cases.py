"""Points that meet atoms and clauses, or the atoms that tell that there is none."""

from collections.abc import Sequence

from outside.certificates import used_rows
from outside.invariants import GaveUp
from outside.linear import Atom, Clause, holds
from outside.solver import SolverLimit, solve


class TooManyCases(GaveUp):
    """More cases than were allowed."""


class Cases:
    """The search for a point: where one violates a clause, each of its atoms is tried."""

    def __init__(self, atoms: Sequence[Atom], clauses: Sequence[Clause], most: int) -> None:
        self.atoms = list(atoms)
        self.clauses = clauses
        self.left = most

    def search(self) -> dict[int, int] | set[int]:
        """A point, or the numbers of atoms that no point meets beside the clauses."""
        return self._search(self.atoms)

    def _search(self, rows: list[Atom]) -> dict[int, int] | set[int]:
        """A point of the rows, or the given atoms that refute all cases."""
        self.left -= 1
        if self.left < 0:
            raise TooManyCases("too many cases at a call")
        try:
            outcome = solve(rows)
        except SolverLimit as limit:
            raise GaveUp(f"the solver's limit: {limit}") from limit
        if not isinstance(outcome, dict):
            return {number for number in used_rows(outcome) if number < len(self.atoms)}
        violated = [c for c in self.clauses if not any(holds(atom, outcome) for atom in c)]
        if not violated:
            return outcome
        core: set[int] = set()
        for atom in min(violated, key=len):
            found = self._search([*rows, atom])
            if isinstance(found, dict):
                return found
            core |= found
        return core
