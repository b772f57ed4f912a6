"""Asking z3, which is run as a program."""

import shutil
from collections.abc import Sequence

from outside.clock import WAITING
from outside.processes import Limits, TimeOver, TooLong, run

TRIED = "4.8.12"
PACKAGE = "Debian's package z3 (apt-get install z3)"
MAX_OUTPUT = 8_000_000
MEMORY_MEGABYTES = 4_000


class SolverFault(Exception):
    """There is no answer; the message says why."""


def solver_path() -> str:
    """Where z3 is."""
    path = shutil.which("z3")
    if not path:
        raise SolverFault(f"z3 isn't there: it is {PACKAGE}")
    return path


def printed(words: Sequence[str], text: str, seconds: float) -> str:
    """What z3 prints."""
    try:
        ended = run(words, text.encode(), Limits(seconds, MAX_OUTPUT, worked=True))
    except OSError as fault:
        raise SolverFault(f"{words[0]} doesn't run: {fault.strerror}; z3 is {PACKAGE}") from None
    except TooLong:
        raise SolverFault("z3 prints more than 8 MB") from None
    return ended.output.decode("utf-8", "replace")


def version_note(path: str) -> str:
    """A note where z3 is another version than the one that this was tried with; else nothing."""
    try:
        text = printed([path, "--version"], "", 5.0)
    except (SolverFault, TimeOver):
        text = ""
    words = text.split()
    if words[:2] == ["Z3", "version"] and words[2:3] == [TRIED]:
        return ""
    found = " ".join(words[:3])[:60] or "of no version"
    return f"z3 is {found}; this was tried with {TRIED}, {PACKAGE}"


def printed_by_solver(text: str, options: Sequence[str], seconds: float) -> str:
    """What z3 prints for a text of SMT-LIB."""
    limit = int(seconds * WAITING) + 1
    words = [solver_path(), f"-T:{limit}", f"-memory:{MEMORY_MEGABYTES}", *options, "-in"]
    return printed(words, text, seconds)


def ask(text: str, options: Sequence[str], seconds: float) -> tuple[str, str]:
    """Z3's answer, `sat` or `unsat`, and what it prints after it."""
    first, _, rest = printed_by_solver(text, options, seconds).partition("\n")
    match first.strip():
        case "sat" | "unsat" as verdict:
            return verdict, rest
        case "timeout":
            raise TimeOver
        case "unknown":
            raise SolverFault("z3 says unknown")
        case "":
            raise SolverFault("z3 ended without an answer")
    raise SolverFault(f"z3 says {first[:60]!r}")
