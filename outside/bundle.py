"""Proof bundles: claims with their moves, and the text of a bundle."""

from collections.abc import Sequence
from dataclasses import dataclass

from outside.certificates import Branch, Certificate, Close, Derived
from outside.graphs import row_text
from outside.linear import Atom
from outside.partition import Query, RegionEdge


@dataclass(frozen=True)
class Split:
    """A region is divided by atoms."""

    edge: RegionEdge
    atoms: tuple[Atom, ...]


@dataclass(frozen=True)
class Kill:
    """No step leads over the edge: the certificate refutes the source with the preimage."""

    edge: RegionEdge
    by: Certificate


@dataclass(frozen=True)
class KillCall:
    """No call leads over the edge: another claim tells, and the certificates that it is met."""

    edge: RegionEdge
    claim: int
    proofs: tuple[Certificate, ...]


Move = Split | Kill | KillCall


@dataclass(frozen=True)
class Claim:
    """No run is what the query asks for; the moves leave no path of live edges."""

    query: Query
    moves: tuple[Move, ...]


@dataclass(frozen=True)
class Bundle:
    """Claims of which the first is that of the assertion, which is counted from 0."""

    assertion: int
    claims: tuple[Claim, ...]


def _rows_text(atoms: Sequence[Atom]) -> str:
    """A cube as lines."""
    return f"cube {len(atoms)}\n" + "".join(map(row_text, atoms))


def _derived_text(step: Derived) -> str:
    """A derived row as lines."""
    pairs = "".join(f" {number} {times}" for number, times in step.parts)
    return f"derive {len(step.parts)}{pairs} {step.divide}\n{row_text(step.row)}"


def certificate_text(certificate: Certificate) -> str:
    """A certificate as lines."""
    derived = "".join(map(_derived_text, certificate.derived))
    match certificate:
        case Close():
            return f"close {len(certificate.derived)}\n{derived}"
        case Branch():
            head = f"branch {len(certificate.derived)} {certificate.column} {certificate.at}\n"
            low, high = certificate_text(certificate.low), certificate_text(certificate.high)
            return head + derived + low + high


def _move_text(move: Move) -> str:
    """A move as lines."""
    edge = f"{move.edge.edge} {move.edge.source} {move.edge.target}"
    match move:
        case Split():
            return f"split {edge}\n{_rows_text(move.atoms)}"
        case Kill():
            return f"kill {edge}\n{certificate_text(move.by)}"
        case KillCall():
            proofs = "".join(map(certificate_text, move.proofs))
            return f"call {edge} {move.claim} {len(move.proofs)}\n{proofs}"


def _claim_text(claim: Claim) -> str:
    """A claim as lines."""
    query = claim.query
    ends = "return" if query.fails_at is None else f"fail {query.fails_at}"
    cubes = _rows_text(query.start) + _rows_text(query.end)
    moves = "".join(map(_move_text, claim.moves))
    return f"claim {query.procedure} {ends}\n{cubes}moves {len(claim.moves)}\n{moves}"


def print_bundle(bundle: Bundle, source: bytes) -> bytes:
    """The text of a bundle for a source."""
    head = f"smash-bundle 1\nsource {len(source)}\n".encode()
    claims = "".join(map(_claim_text, bundle.claims))
    tail = f"\nassert {bundle.assertion + 1}\nclaims {len(bundle.claims)}\n{claims}"
    return head + source + tail.encode()
