"""The strict reader of bundles: it takes what `print_bundle` prints, and nothing else."""

from collections.abc import Callable
from typing import TypeVar

from outside.bundle import Bundle, Claim, Kill, KillCall, Move, Split
from outside.certificates import MAX_NESTING, Branch, Certificate, Close, Derived
from outside.linear import MAX_VALUE, MIN_VALUE, Atom, Term, is_within
from outside.partition import Query, RegionEdge

MAX_SOURCE = 65_536
LIMIT = 2**32

Item = TypeVar("Item")


class NotBundle(Exception):
    """The bytes are no bundle; the message has the place of the line that is wrong."""


class _Reader:
    """Bytes that are taken line by line, and the numbers of the line at hand."""

    def __init__(self, data: bytes) -> None:
        self.data = data
        self.at = 0
        self.items: list[bytes] = []
        self.next = 0

    def fault(self, why: str) -> NotBundle:
        """What is wrong, and where."""
        return NotBundle(f"byte {self.at}: {why}")

    def line(self) -> bytes:
        """Takes a line; its word is told, and its numbers are at hand."""
        end = self.data.find(b"\n", self.at)
        if end < 0:
            raise self.fault("the text ends too early")
        word, *self.items = self.data[self.at : end].split(b" ")
        self.next = 0
        self.at = end + 1
        return word

    def word(self, wanted: bytes) -> None:
        """Takes a line that begins with this word."""
        if self.line() != wanted:
            raise self.fault(f"a line of {wanted.decode()!r} is wanted before")

    def signed(self, least: int, most: int) -> int:
        """The next number of the line, in its only spelling."""
        if self.next == len(self.items):
            raise self.fault("a number is missing in the line before")
        item = self.items[self.next]
        self.next += 1
        digits = item.removeprefix(b"-")
        if not digits.isdigit() or len(digits) > 40 or item == b"-0":
            raise self.fault("no number in the line before")
        number = int(item)
        if str(number).encode() != item or not least <= number <= most:
            raise self.fault("a number out of range in the line before")
        return number

    def number(self) -> int:
        """The next number, which is one of things."""
        return self.signed(0, LIMIT - 1)

    def value(self) -> int:
        """The next number, of 64 bits."""
        return self.signed(MIN_VALUE, MAX_VALUE)

    def last(self, value: Item) -> Item:
        """The value, if nothing more is in the line."""
        if self.next != len(self.items):
            raise self.fault("more in the line before than there should be")
        return value

    def count(self) -> int:
        """The last number of a line, which is a length."""
        return self.last(self.signed(0, 2**64 - 1))

    def each(self, count: int, read: Callable[[], Item]) -> tuple[Item, ...]:
        """So many things; room is made for what was read alone."""
        found = []
        for _ in range(count):
            found.append(read())
        return tuple(found)

    def pairs(self, most: int) -> tuple[tuple[int, int], ...]:
        """A list of pairs after its length."""
        count = self.signed(0, most)
        return self.each(count, lambda: (self.number(), self.signed(-(2**64), 2**64)))

    def row(self) -> Atom:
        """A row in its only form."""
        self.word(b"row")
        row = Term(self.pairs(1024), self.last(self.signed(-(2**90), 2**90)))
        columns = row.columns()
        if sorted(set(columns)) != columns or any(a == 0 for _, a in row.parts):
            raise self.fault("the row before isn't in its form")
        if not is_within(row):
            raise self.fault("the row before is beyond the limits")
        return row

    def cube(self) -> tuple[Atom, ...]:
        """The atoms of a cube."""
        self.word(b"cube")
        return self.each(self.count(), self.row)

    def derived(self) -> Derived:
        """A derived row."""
        self.word(b"derive")
        parts = self.pairs(2**64)
        if any(not MIN_VALUE <= times <= MAX_VALUE for _, times in parts):
            raise self.fault("a number out of range in the line before")
        return Derived(parts, self.last(self.value()), self.row())

    def certificate(self, depth: int = 0) -> Certificate:
        """A certificate at this depth."""
        word = self.line()
        if word == b"close":
            return Close(self.each(self.count(), self.derived))
        if word != b"branch" or depth == MAX_NESTING:
            raise self.fault("a certificate is wanted before")
        count, column, at = self.signed(0, 2**64 - 1), self.number(), self.last(self.value())
        derived = self.each(count, self.derived)
        low, high = self.certificate(depth + 1), self.certificate(depth + 1)
        return Branch(derived, column, at, low, high)

    def edge(self) -> RegionEdge:
        """A region edge."""
        return RegionEdge(self.number(), self.number(), self.number())

    def move(self) -> Move:
        """A move."""
        word = self.line()
        edge = self.edge()
        if word == b"split":
            self.last(None)
            return Split(edge, self.cube())
        if word == b"kill":
            self.last(None)
            return Kill(edge, self.certificate())
        if word != b"call":
            raise self.fault("a move is wanted before")
        claim, count = self.number(), self.count()
        return KillCall(edge, claim, self.each(count, self.certificate))

    def claim(self) -> Claim:
        """A claim."""
        self.word(b"claim")
        procedure = self.number()
        ends = self.items[self.next : self.next + 1]
        if ends not in ([b"return"], [b"fail"]):
            raise self.fault("no exit in the line before")
        self.next += 1
        fails_at = self.last(None if ends == [b"return"] else self.number())
        start, end = self.cube(), self.cube()
        self.word(b"moves")
        moves = self.each(self.count(), self.move)
        return Claim(Query(procedure, fails_at, start, end), moves)

    def source(self) -> bytes:
        """The source's bytes."""
        self.word(b"source")
        size = self.last(self.signed(0, MAX_SOURCE))
        source = self.data[self.at : self.at + size]
        self.at += size
        if len(source) < size or self.data[self.at : self.at + 1] != b"\n":
            raise self.fault("the source has another length")
        self.at += 1
        return source


def read_bundle(data: bytes) -> tuple[Bundle, bytes]:
    """The bundle of a text and its source; any other bytes raise `NotBundle`."""
    reader = _Reader(data)
    reader.word(b"smash-bundle")
    if reader.items != [b"1"]:
        raise reader.fault("another version of the text")
    source = reader.source()
    reader.word(b"assert")
    assertion = reader.last(reader.signed(1, LIMIT)) - 1
    reader.word(b"claims")
    claims = reader.each(reader.count(), reader.claim)
    if reader.at != len(data):
        raise reader.fault("more after the last line")
    return Bundle(assertion, claims), source
