"""Tables: a head, then rows, whose columns are parted by tabs."""
from pathlib import Path


def read_table(path: Path, head: tuple[str, ...]) -> list[tuple[str, ...]]:
    """The rows of a file whose first line has these names of columns."""
    first, *lines = path.read_text(encoding="utf-8").splitlines()
    rows = [tuple(line.split("\t")) for line in lines]
    for number, row in enumerate([tuple(first.split("\t")), *rows], 1):
        if len(row) != len(head) or (number == 1 and row != head):
            raise ValueError(f"{path.name}:{number}: not the {len(head)} columns {', '.join(head)}")
    return rows
