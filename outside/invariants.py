"""What a search hands to the proof: clauses at nodes, of returns and of failures."""

from dataclasses import dataclass, field

from outside.linear import Atom, Clause, Point, holds

__all__ = ["Atom", "Clause", "GaveUp", "Invariants", "violated_clauses"]


class GaveUp(Exception):
    """No bundle was made; the reason is for people alone."""

    def __init__(self, reason: str) -> None:
        super().__init__(reason)
        self.reason = reason


def violated_clauses(clauses: list[Clause], point: Point) -> list[Clause]:
    """The clauses that don't hold at the point, short ones first."""
    found = [c for c in clauses if not any(holds(atom, point) for atom in c)]
    return sorted(found, key=lambda c: (len(c), sum(len(atom.parts) for atom in c)))


@dataclass
class Invariants:
    """Clauses over the columns of the product; an atom is read as `term <= 0`.

    `node` has, by procedure and node, clauses over slots and entry values that hold in every state
    that gets there. `summary` has, by procedure, clauses over entry and exit values that every
    returning run satisfies, and `failure` clauses over entry values that every run that fails at
    the assertion satisfies; no run fails where the empty clause is among them. A list with no
    clause says nothing. Where a key is missing, nothing is known, and preimages are used.
    """

    node: dict[tuple[int, int], list[Clause]] = field(default_factory=dict)
    summary: dict[int, list[Clause]] = field(default_factory=dict)
    failure: dict[int, list[Clause]] = field(default_factory=dict)

    def nodes(self, procedure: int) -> set[int]:
        """The nodes of a procedure about which something is known."""
        return {node for (owner, node), known in self.node.items() if owner == procedure and known}

    def violated(self, procedure: int, node: int, point: Point) -> Clause | None:
        """A clause of the node that doesn't hold at the point, if there is one."""
        found = violated_clauses(self.node.get((procedure, node), []), point)
        return found[0] if found else None

    def around(self, procedure: int, node: int, point: Point) -> list[Atom]:
        """Atoms that hold at the point, and wherever they hold the invariant does."""
        atoms = []
        for clause in self.node.get((procedure, node), []):
            atoms += [atom for atom in clause if holds(atom, point)][:1]
        return atoms
