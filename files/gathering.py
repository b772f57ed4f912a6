"""The files that words name, and their bytes."""
import os
import sys
from collections.abc import Iterator

from files.results import Checked

STANDARD_INPUT = "<stdin>"
# Far more than a source may have; the program refuses what is longer than its limit.
MOST_BYTES = 16 * 2**20


def gathered(words: list[str]) -> list[tuple[str, str]]:
    """The name of each file with why it can't be one; a folder stands for the `.c` files in it, in order, each once."""
    found: dict[str, str] = {}
    for word in words:
        if word != "-" and os.path.isdir(word):
            names = list(sources_below(word))
            for name in names:
                found.setdefault(name, "")
            if not names:
                found.setdefault(word, "there is no .c file in this folder")
        else:
            found.setdefault(word, "")
    return list(found.items())


def sources_below(folder: str) -> Iterator[str]:
    """The `.c` files below a folder; what begins with a dot isn't looked at."""
    for at, folders, names in os.walk(folder):
        folders[:] = sorted(it for it in folders if not it.startswith("."))
        for name in sorted(names):
            if name.endswith(".c") and not name.startswith("."):
                yield os.path.join(at, name)


def read(name: str, fault: str) -> Checked:
    """A file with its bytes, read once, or why it can't be read."""
    if fault:
        return Checked(name, fault=fault)
    try:
        if name == "-":
            return Checked(STANDARD_INPUT, sys.stdin.buffer.read(MOST_BYTES))
        with open(name, "rb") as file:
            return Checked(name, file.read(MOST_BYTES))
    except OSError as it:
        return Checked(STANDARD_INPUT if name == "-" else name, fault=it.strerror or str(it))
