"""What to write in place of what the language doesn't have, from the table of docs/LANGUAGE.md.

Each row of the table says how the program refuses a construct: by which text, at which byte or token. `NAME` and
`LITERAL` stand for any, and count only where no other row fits; so does a text without a token.
"""
import os
import re
from collections.abc import Iterator
from functools import lru_cache
from typing import NamedTuple

from files.lexer import RESERVED, TOKEN, WORDS, Lines, after_gaps
from files.program import TOP
from files.reports import Place, Refusal
from files.results import Hint

PAGE = os.path.join(TOP, "docs", "LANGUAGE.md")
HEADER = "| in C | refused as | write |"
CLAUSE = re.compile(r"`([a-z -]+)`(?: at ((?:`[^`]+`(?:, )?)+))?")
MARK_OF_ORDER = "\xef\xbb\xbf"
# A name right before a name, as that of a type in a declaration, is what isn't in the language.
NAME_BEFORE = re.compile(r"\b([A-Za-z_]\w*)\s+\Z", re.A)
LONGEST_NAME = 100
# How many other constructs of a refused file are told.
OTHERS = 5


class Row(NamedTuple):
    """A row: the construct in C, what to write, and by which texts it is refused at which tokens (none: anywhere)."""

    construct: str
    remedy: str
    refused: dict[str, tuple[str, ...]]


def cells(line: str) -> list[str]:
    """The cells of a table's line; `\\|` is a bar of a cell."""
    return [it.strip().replace("\\|", "|") for it in re.split(r"(?<!\\)\|", line)[1:-1]]


@lru_cache
def table(page: str = PAGE) -> tuple[Row, ...]:
    """The rows of the page; none where there is no page."""
    try:
        with open(page, encoding="utf-8") as file:
            lines = file.read().split("\n")
    except OSError:
        return ()
    if HEADER not in lines:
        return ()
    rows = []
    for line in lines[lines.index(HEADER) + 2:]:
        if not line.startswith("|"):
            break
        construct, refused, remedy = cells(line)
        clauses = {it[1]: tuple(re.findall(r"`([^`]+)`", it[2] or "")) for it in CLAUSE.finditer(refused)}
        rows.append(Row(construct, remedy, clauses))
    return tuple(rows)


def token_at(text: str, offset: int) -> tuple[str, str]:
    """The token or the byte at an offset, and what stands for any of its kind in the table."""
    if offset == 0 and text.startswith(MARK_OF_ORDER):
        return "BOM", ""
    it = TOKEN.match(text, offset)
    if it is None:
        return text[offset: offset + 1], ""
    is_name = it.lastgroup == "name" and it[0] not in WORDS | RESERVED
    return it[0], "NAME" if is_name else "LITERAL" if it.lastgroup == "literal" else ""


def rows_of(text: str, refused: str, offset: int) -> list[Row]:
    """The rows that fit a refusal best: by the name before it or its token, else by its kind, else by the text alone."""
    token, kind = token_at(text, offset)
    if refused == "bad byte" and token != "BOM":
        token = text[offset: offset + 1]
    before = NAME_BEFORE.search(text, max(0, offset - LONGEST_NAME), offset) if kind == "NAME" else None
    wanted_ones = (before[1] if before and refused == "unexpected token" else "", token, kind)
    levels = [[it for it in table() if wanted in it.refused.get(refused, ())] for wanted in wanted_ones if wanted]
    levels.append([it for it in table() if it.refused.get(refused) == ()])
    return next((level for level in levels if level), [])


def hints_of(text: bytes, refusal: Refusal) -> list[Hint]:
    """What to write in place of what was refused, and of the other constructs that no program of the language has."""
    if refusal.place is None:
        return []
    source = text.decode("latin-1")
    lines = Lines(source)
    hints = [Hint(refusal.place, it.construct, it.remedy) for it in rows_of(source, refusal.text, lines.offset(*refusal.place))]
    told = {(it.construct, it.remedy) for it in hints}
    for place, row in others(source, lines):
        if (row.construct, row.remedy) not in told and len(hints) < OTHERS + 2:
            told.add((row.construct, row.remedy))
            hints.append(Hint(place, row.construct, row.remedy))
    return hints


def others(text: str, lines: Lines) -> Iterator[tuple[Place, Row]]:
    """The constructs of a text that no program has: bytes that begin no token, and reserved words, in order."""
    at = after_gaps(text, 0)
    while at < len(text):
        it = TOKEN.match(text, at)
        refused = "bad byte" if it is None else "unexpected token" if it[0] in RESERVED else ""
        is_answered = text[at] == ":" and "?" in text[text.rfind("\n", 0, at) + 1: at]
        for row in rows_of(text, refused, at)[:1] if refused and not is_answered else []:
            yield lines.place(at), row
        at = after_gaps(text, behind(text, at) if it is None else it.end())


def behind(text: str, at: int) -> int:
    """Behind a byte that begins no token, and behind what it opens: a text in quotes, a line of a preprocessor."""
    if text[at] == "#":
        end = re.compile(r"(?:\\\n|[^\n])*").match(text, at)
    elif text[at] in "'\"":
        end = re.compile(r"(['\"])(?:\\.|(?!\1)[^\n\\])*\1?").match(text, at)
    else:
        end = None
    return max(at + 1, end.end() if end else 0)
