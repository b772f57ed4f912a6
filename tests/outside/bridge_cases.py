"""Bundles of labelled programs are accepted, and graphs are read back from their text."""

import csv
from collections.abc import Iterator
from pathlib import Path

from settings import Case, Label, Setting, label, labels

from outside.graphs import BadGraphs, graphs_text, read_graphs

SECONDS = 100.0
HELD = Path(__file__).resolve().parent / "accepted.tsv"


def accepted(setting: Setting, owed: Label) -> list[str]:
    """A bundle is found, and accepted at the assertion's place."""
    found = setting.bridge(owed.path, owed.number, SECONDS)
    if found.returncode != 0:
        return [f"status {found.returncode}: {found.stderr.decode('utf-8', 'replace').strip()}"]
    answer = setting.recheck(found.stdout)
    return [] if answer == f"accepted {owed.place}\n" else [f"recheck says {answer!r}"]


def read_back(setting: Setting, paths: list[Path]) -> list[str]:
    """The text of graphs is that of the graphs that are read from it."""
    faults = []
    for path in paths:
        text = setting.graphs_text(path.read_bytes())
        if graphs_text(read_graphs(text)) != text:
            faults.append(f"{path.name}: another text")
    return faults


def changed_texts(setting: Setting, path: Path) -> list[str]:
    """A text of graphs with a line or a number too few or too many isn't read, or is another one."""
    text = setting.graphs_text(path.read_bytes())
    lines = text.splitlines(keepends=True)
    changed = [text[:-1], text + "\n", "", "\n", text.replace("main 0", "main 99")]
    changed += ["".join(lines[:i] + lines[i + 1 :]) for i in range(0, len(lines), 3)]
    changed += ["".join([*lines[:i], lines[i][:-1] + " 1\n", *lines[i + 1 :]]) for i in range(len(lines))]
    faults = []
    for other in changed:
        try:
            if graphs_text(read_graphs(other)) != other:
                faults.append(f"read, and printed otherwise: {other[:80]!r}")
        except BadGraphs:
            pass
    return faults


def cases(setting: Setting) -> Iterator[Case]:
    """All cases."""
    paths = sorted({known.path for known in labels(setting.labelled)})
    for i in range(0, len(paths), 40):
        yield Case(f"graphs {i}", read_back, (paths[i : i + 40],), needs_z3=False)
    yield Case("graphs changed", changed_texts, (setting.labelled / "programs/loop/lock.c",), needs_z3=False)
    with HELD.open(newline="") as table:
        for row in csv.DictReader(table, delimiter="\t"):
            owed = label(setting.labelled, row["program"], int(row["assertion"]))
            yield Case(f"accepted {row['program']} {owed.number}", accepted, (owed,))
