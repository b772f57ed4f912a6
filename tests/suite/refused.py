"""Sources that are refused, each with its exact line and status."""
from collections.abc import Iterator
from pathlib import Path

from suite.cases import Case, Outcome, Setting, difference
from suite.tables import read_table

# Commands that read a source: each refuses it with the same line.
COMMANDS = (["check"], ["replay", "[]"], ["bundle", "1"], ["sweep"])
REFUSED = 3


def refused_cases(tests: Path) -> Iterator[Case]:
    """Each source of tests/refused.tsv, and whether the table has all that are there."""
    table = read_table(tests / "refused.tsv", ("source", "line"))
    for name, line in table:
        yield refused_case(tests / "refused" / name, line)
    there = sorted(path.name for path in (tests / "refused").iterdir())
    named = sorted(name for name, _ in table)
    yield Case("refused/table", lambda _: Outcome(difference("sources of refused.tsv", there, named)))


def refused_case(path: Path, line: str) -> Case:
    """That every command refuses this source with this line."""

    def judged(setting: Setting) -> Outcome:
        source, faults = path.read_bytes(), []
        for words in COMMANDS:
            ended = setting.run(words, source)
            faults += difference(f"output of {words[0]}", f"{line}\n".encode(), ended.out)
            faults += difference(f"status of {words[0]}", REFUSED, ended.status)
            faults += difference(f"standard error of {words[0]}", b"", ended.err)
        return Outcome(faults)

    return Case(f"refused/{path.name}", judged)
