"""Labelled programs: of each assertion of a folder's programs it is known whether it can fail.

A folder has a truth.tsv whose first line names its columns: `program` or `file`, then `place`, or `line` and `column`, or
`assertion` (its number from 1), then `truth`, which is `proved` or `found`. The programs stand beside it, or in its
folder `programs/`.
"""
import csv
import os
from collections.abc import Iterator
from typing import NamedTuple

Place = tuple[int, int]


class Labelled(NamedTuple):
    """A program: its name, its path, and the truth of each assertion, by its place or by its number."""

    name: str
    path: str
    truths: dict[Place | int, str]


def key_of(row: dict[str, str]) -> Place | int:
    """Which assertion a row is about."""
    if "place" in row:
        line, _, column = row["place"].partition(":")
        return int(line), int(column)
    return (int(row["line"]), int(row["column"])) if "line" in row else int(row["assertion"])


def labelled(folder: str) -> Iterator[Labelled]:
    """The programs of a folder."""
    known: dict[str, dict[Place | int, str]] = {}
    with open(os.path.join(folder, "truth.tsv"), encoding="utf-8", newline="") as file:
        for row in csv.DictReader(file, delimiter="\t"):
            known.setdefault(row.get("program") or row["file"], {})[key_of(row)] = row["truth"]
    for name, truths in known.items():
        paths = [os.path.join(folder, name), os.path.join(folder, "programs", name)]
        yield Labelled(name, next(it for it in paths if os.path.exists(it)), truths)


def truth_of(it: Labelled, place: Place, number: int) -> str:
    """The truth of an assertion; nothing where it isn't known."""
    return it.truths.get(place) or it.truths.get(number) or ""
