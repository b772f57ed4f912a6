"""The programs of examples/: what is said of each, and that their page shows it."""
import re
from collections.abc import Iterator
from pathlib import Path

from suite.cases import Case, Outcome, Setting, difference
from suite.reports import LINE, Verdict, replay_faults
from suite.rows import is_allowed, row_case, words_of

# A row of the page: the program, the words after `check`, what it prints, what it shows.
PAGE_ROW = re.compile(r"\| \[`(\w+\.c)`\]\(\1\) \| (.*?) \| (.*?) \| (.*) \|")


def example_cases(tests: Path) -> Iterator[Case]:
    """Each program of examples/, with its row in tests/examples, and the page."""
    examples = tests.parent / "examples"
    for path in sorted(examples.glob("*.c")):
        yield row_case(f"examples/{path.stem}", tests / "examples" / path.stem, path)
    yield Case("examples/README.md", lambda setting: page_outcome(setting, examples), cost=2)


def page_outcome(setting: Setting, examples: Path) -> Outcome:
    """Whether the page has a line for each program, with what its row in tests/examples allows."""
    page = (examples / "README.md").read_text(encoding="utf-8")
    rows = [match.groups() for match in map(PAGE_ROW.fullmatch, page.splitlines()) if match]
    faults = difference("programs of the page", sorted(path.name for path in examples.glob("*.c")), sorted(row[0] for row in rows))
    for name, options, printed, _ in rows:
        folder = setting.tests / "examples" / name.removesuffix(".c")
        words = ["check", "--workers", "1", *options.strip("`").split()]
        faults += difference(f"words of {name}", words_of(folder / "words"), words)
        faults += printed_faults(setting, examples / name, words_of(folder / "verdicts") or [], re.findall("`(.*?)`", printed))
    return Outcome(faults)


def printed_faults(setting: Setting, path: Path, wanted: list[str], lines: list[str]) -> list[str]:
    """What is wrong with the lines that the page shows of a program. A list has to fail at its place."""
    verdicts = [Verdict(match[1], match[2]) for match in map(LINE.fullmatch, lines) if match]
    if len(verdicts) != len(lines) or len(lines) != len(wanted) or not all(map(is_allowed, wanted, verdicts)):
        return difference(f"lines of {path.name}", wanted, lines)
    source = path.read_bytes()
    return [
        fault
        for verdict in verdicts
        if verdict.kind == "found"
        for fault in replay_faults(setting, source, verdict.place, verdict.inputs)
    ]
