"""The text of bundles, read strictly by its grammar and printed: no code of the program's own, and none of its checks.

The grammar and the ranges are those of crates/proof_bundle/specs/Text.antt. `read` raises NotBundle where a text has no
bundle. Lists are lists of Python, so that a change can be made in place.

usage: bundle_text.py < TEXT     says whether it is a bundle, and of how many claims; the status is 1 where it is none
"""
import dataclasses
import re
import sys

MAX_SOURCE, MAX_NESTING, MAX_PARTS = 65536, 512, 1024
NUMBER = re.compile(rb"0|-?[1-9][0-9]*")
THING, COUNT = (0, 2**32 - 1), (0, 2**64 - 1)
LONG, COEFFICIENT, CONSTANT = (-(2**63), 2**63 - 1), (-(2**40), 2**40), (-(2**84), 2**84)
sys.setrecursionlimit(10000)


class NotBundle(Exception):
    pass


@dataclasses.dataclass
class Row:
    parts: list
    constant: int


@dataclasses.dataclass
class Derived:
    parts: list
    divide: int
    row: Row


@dataclasses.dataclass
class Close:
    rows: list


@dataclasses.dataclass
class Branch:
    rows: list
    column: int
    at: int
    low: object
    high: object


@dataclasses.dataclass
class Split:
    edge: tuple
    atoms: list


@dataclasses.dataclass
class Kill:
    edge: tuple
    by: object


@dataclasses.dataclass
class Call:
    edge: tuple
    claim: int
    proof: list


@dataclasses.dataclass
class Claim:
    proc: int
    fails: object
    start: list
    end: list
    moves: list


@dataclasses.dataclass
class Bundle:
    source: bytes
    assertion: int
    claims: list


class Reader:
    """A text, and how far it is read."""

    def __init__(self, text):
        self.text, self.at = text, 0

    def tag(self, tag):
        if not self.text.startswith(tag, self.at):
            raise NotBundle(f"{tag!r} at {self.at}")
        self.at += len(tag)

    def begins(self, tag):
        return self.text.startswith(tag, self.at)

    def number(self, end, within):
        """A number with its end behind it. A longer one than 30 characters is in no range."""
        it = NUMBER.match(self.text, self.at)
        if not it or it.end() - it.start() > 30 or not within[0] <= int(it[0]) <= within[1]:
            raise NotBundle(f"number at {self.at}")
        self.at = it.end()
        self.tag(end)
        return int(it[0])

    def pairs(self, within):
        """A count, and so many pairs, each behind a blank."""
        many = self.number(b" ", COUNT)
        return self.several(many, lambda: (self.number(b" ", THING), self.number(b" ", within)))

    def several(self, many, part):
        found = []
        for _ in range(many):
            found.append(part())
        return found

    def lines(self, part):
        return self.several(self.number(b"\n", COUNT), part)

    def row(self):
        self.tag(b"row ")
        parts = self.pairs(COEFFICIENT)
        constant = self.number(b"\n", CONSTANT)
        columns = [column for column, _ in parts]
        if len(parts) > MAX_PARTS or any(low >= high for low, high in zip(columns, columns[1:])) or any(by == 0 for _, by in parts):
            raise NotBundle(f"no row before {self.at}")
        return Row(parts, constant)

    def cube(self):
        self.tag(b"cube ")
        return self.lines(self.row)

    def derived(self):
        self.tag(b"derive ")
        return Derived(self.pairs(LONG), self.number(b"\n", LONG), self.row())

    def certificate(self, depth=MAX_NESTING):
        if self.begins(b"close "):
            self.tag(b"close ")
            return Close(self.lines(self.derived))
        self.tag(b"branch ")
        if depth == 0:
            raise NotBundle(f"nested too deep at {self.at}")
        many, column, at = self.number(b" ", COUNT), self.number(b" ", THING), self.number(b"\n", LONG)
        rows = self.several(many, self.derived)
        return Branch(rows, column, at, self.certificate(depth - 1), self.certificate(depth - 1))

    def edge(self, end):
        return self.number(b" ", THING), self.number(b" ", THING), self.number(end, THING)

    def move(self):
        if self.begins(b"split "):
            self.tag(b"split ")
            return Split(self.edge(b"\n"), self.cube())
        if self.begins(b"kill "):
            self.tag(b"kill ")
            return Kill(self.edge(b"\n"), self.certificate())
        self.tag(b"call ")
        return Call(self.edge(b" "), self.number(b" ", THING), self.lines(self.certificate))

    def exit(self):
        if self.begins(b"return\n"):
            self.tag(b"return\n")
            return None
        self.tag(b"fail ")
        return self.number(b"\n", THING)

    def claim(self):
        self.tag(b"claim ")
        proc, fails, start, end = self.number(b" ", THING), self.exit(), self.cube(), self.cube()
        self.tag(b"moves ")
        return Claim(proc, fails, start, end, self.lines(self.move))

    def source(self):
        self.tag(b"smash-bundle 1\nsource ")
        many = self.number(b"\n", (0, MAX_SOURCE))
        found = self.text[self.at : self.at + many]
        if len(found) < many:
            raise NotBundle("source cut off")
        self.at += many
        return found

    def bundle(self):
        source = self.source()
        self.tag(b"\nassert ")
        assertion = self.number(b"\n", (1, 2**32))
        self.tag(b"claims ")
        claims = self.lines(self.claim)
        if self.at != len(self.text):
            raise NotBundle(f"more behind {self.at}")
        return Bundle(source, assertion, claims)


def read(text):
    return Reader(text).bundle()


def is_bundle(text):
    try:
        read(text)
        return True
    except NotBundle:
        return False


def of_pairs(pairs):
    return "".join(f"{it} {by} " for it, by in pairs)


def of_row(it):
    return f"row {len(it.parts)} {of_pairs(it.parts)}{it.constant}\n"


def of_cube(rows):
    return f"cube {len(rows)}\n" + "".join(map(of_row, rows))


def of_derived(it):
    return f"derive {len(it.parts)} {of_pairs(it.parts)}{it.divide}\n{of_row(it.row)}"


def of_certificate(it):
    rows = "".join(map(of_derived, it.rows))
    if isinstance(it, Close):
        return f"close {len(it.rows)}\n{rows}"
    return f"branch {len(it.rows)} {it.column} {it.at}\n{rows}{of_certificate(it.low)}{of_certificate(it.high)}"


def of_move(it):
    edge = " ".join(map(str, it.edge))
    if isinstance(it, Split):
        return f"split {edge}\n{of_cube(it.atoms)}"
    if isinstance(it, Kill):
        return f"kill {edge}\n{of_certificate(it.by)}"
    return f"call {edge} {it.claim} {len(it.proof)}\n" + "".join(map(of_certificate, it.proof))


def of_claim(it):
    end = "return" if it.fails is None else f"fail {it.fails}"
    moves = "".join(map(of_move, it.moves))
    return f"claim {it.proc} {end}\n{of_cube(it.start)}{of_cube(it.end)}moves {len(it.moves)}\n{moves}"


def printed(it):
    head = f"smash-bundle 1\nsource {len(it.source)}\n".encode()
    claims = "".join(map(of_claim, it.claims))
    return head + it.source + f"\nassert {it.assertion}\nclaims {len(it.claims)}\n{claims}".encode()


def main():
    text = sys.stdin.buffer.read()
    try:
        it = read(text)
    except NotBundle as why:
        print(f"not a bundle: {why}")
        return 1
    print(f"assertion {it.assertion}, {len(it.claims)} claims, {sum(len(claim.moves) for claim in it.claims)} moves")
    return 0 if printed(it) == text else sys.exit("printed otherwise")


if __name__ == "__main__":
    sys.exit(main())
