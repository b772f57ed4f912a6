"""What is known to be open: kept by file, procedure and the assertion's text, so that lines may move."""
import json
from collections import Counter
from collections.abc import Iterable

from files.results import FOUND, PROVED, Assertion, Checked
from files.writing import written

VERSION = 1
Key = tuple[str, str, str, str]


class BadBaseline(Exception):
    """The file is no baseline."""


def word_of(it: Assertion) -> str:
    """What is known of an open assertion."""
    return "can fail" if it.state == FOUND else "not settled"


def keys_of(checked: Checked, it: Assertion) -> list[Key]:
    """By which entries an open assertion is known: one that can fail is no news where it was open before as that."""
    words = ["can fail"] if it.state == FOUND else ["not settled", "can fail"]
    return [(checked.name, it.procedure, it.text, word) for word in words]


def read_baseline(path: str) -> Counter[Key]:
    """How often each key is known."""
    try:
        with open(path, encoding="utf-8", errors="surrogateescape") as file:
            held = json.load(file)
        if held["version"] != VERSION:
            raise BadBaseline(f"{path}: its version is {held['version']!r}, and {VERSION} is read")
        known: Counter[Key] = Counter()
        for it in held["open"]:
            key = (it["file"], it["procedure"], it["assertion"], it["state"])
            if not all(isinstance(part, str) for part in key) or not isinstance(it["count"], int):
                raise TypeError
            known[key] += it["count"]
        return known
    except OSError as fault:
        raise BadBaseline(f"{path}: {fault.strerror}") from None
    except (ValueError, KeyError, TypeError):
        raise BadBaseline(f"{path}: no baseline of smash-files") from None


def mark_known(files: Iterable[Checked], known: Counter[Key]) -> None:
    """Marks the open assertions that are known, as many of each key as there were."""
    left = Counter(known)
    for checked in files:
        for it in checked.assertions:
            if it.state == PROVED:
                continue
            key = next((key for key in keys_of(checked, it) if left[key] > 0), None)
            if key is not None:
                left[key] -= 1
                it.is_known = True


def write_baseline(path: str, files: Iterable[Checked]) -> None:
    """Keeps what is open now."""
    counts: Counter[Key] = Counter()
    for checked in files:
        for it in checked.assertions:
            if it.state != PROVED:
                counts[(checked.name, it.procedure, it.text, word_of(it))] += 1
    rows = [
        {"file": file, "procedure": procedure, "assertion": text, "state": word, "count": count}
        for (file, procedure, text, word), count in sorted(counts.items())
    ]
    whole = json.dumps({"version": VERSION, "open": rows}, indent=1) + "\n"
    written(path, whole.encode("ascii"))
