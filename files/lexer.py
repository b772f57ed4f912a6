"""Tokens of the accepted language, with their places.

The text is a source's bytes read as Latin-1, so that an offset and a column count bytes.
"""
import re
from collections.abc import Iterator
from typing import NamedTuple

WORDS = frozenset("int long void extern if else while do for break continue return".split())
RESERVED = frozenset(
    "auto case char const default double enum float goto inline register restrict short signed sizeof static struct "
    "switch typedef union unsigned volatile _Alignas _Alignof _Atomic _Bool _Complex _Generic _Imaginary _Noreturn "
    "_Static_assert _Thread_local".split()
)
GAP = re.compile(r"[\t-\r ]+|//[^\n]*|/\*.*?\*/", re.S)
INCLUDE = re.compile(r"#[ \t]*include(?![A-Za-z0-9_])[^\n]*")
TOKEN = re.compile(
    r"(?P<name>[A-Za-z_][A-Za-z0-9_]*)"
    r"|(?P<literal>(?:0[xX][0-9A-Fa-f]+|0[0-7]*|[1-9][0-9]*)(?:ll|LL|l|L)?)"
    r"|(?P<mark>&&|\|\||[-+*/%<>=!]=|\+\+|--|[-(){};,=+*/%!<>])"
)


class Fault(Exception):
    """The text is no program of the language, as far as this reader can tell."""


class Token(NamedTuple):
    """A token: its kind (`name`, `word`, `literal`, `mark` or `end`), its text and where it begins."""

    kind: str
    text: str
    offset: int

    @property
    def end(self) -> int:
        """The offset behind the token."""
        return self.offset + len(self.text)


class Lines:
    """The lines of a text."""

    def __init__(self, text: str) -> None:
        self.text = text
        self.starts = [0] + [it.end() for it in re.finditer("\n", text)]

    def place(self, offset: int) -> tuple[int, int]:
        """The line and the column of an offset, both counted from 1."""
        low, high = 0, len(self.starts)
        while high - low > 1:
            middle = (low + high) // 2
            low, high = (middle, high) if self.starts[middle] <= offset else (low, middle)
        return low + 1, offset - self.starts[low] + 1

    def line(self, number: int) -> str:
        """The text of a line, without its end; empty where there is none."""
        if not 1 <= number <= len(self.starts):
            return ""
        end = self.text.find("\n", self.starts[number - 1])
        return self.text[self.starts[number - 1]: end if end >= 0 else len(self.text)]

    def offset(self, line: int, column: int) -> int:
        """The offset of a place."""
        return self.starts[min(line, len(self.starts)) - 1] + column - 1


def after_gaps(text: str, at: int) -> int:
    """The offset of the next byte that no gap takes: white space, a comment or an include line."""
    while True:
        gap = GAP.match(text, at)
        if gap is None and text.startswith("#", at) and not text[text.rfind("\n", 0, at) + 1: at].strip(" \t"):
            gap = INCLUDE.match(text, at)
        if gap is None:
            return at
        at = gap.end()


def tokens(text: str) -> Iterator[Token]:
    """The tokens of a text, with one of kind `end` behind them."""
    at = after_gaps(text, 0)
    while at < len(text):
        it = TOKEN.match(text, at)
        kind = it.lastgroup if it else None
        if it is None or kind is None or (kind == "literal" and re.match(r"\w", text[it.end(): it.end() + 1], re.A)):
            raise Fault(f"no token begins at byte {at}")
        if kind == "name" and it[0] in WORDS | RESERVED:
            kind = "word"
        yield Token(kind, it[0], at)
        at = after_gaps(text, it.end())
    yield Token("end", "", len(text))


def literal_value(text: str) -> int:
    """The value of a literal: decimal, octal or hexadecimal."""
    digits = text.rstrip("lL")
    if digits[:2] in ("0x", "0X"):
        return int(digits, 16)
    return int(digits, 8 if digits.startswith("0") else 10)
