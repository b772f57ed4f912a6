"""Whether any run gets to an assertion that is proved.

The program is asked about the same source with `assert(0)` in its place. `proved` of that says that no run gets there.
"""
from files.program import Late, Program
from files.reports import Malformed, Report
from files.results import PROVED, Assertion, Checked
from files.settling import FIRST
from files.source import Asserted, assertions_of, with_failing


def add_reach(program: Program, checked: Checked, seconds: float) -> None:
    """Marks the proved assertions of a file that no run gets to."""
    if checked.text is None:
        return
    known = assertions_of(checked.text)
    for it in checked.assertions:
        if it.state == PROVED and it.place in known:
            it.is_unreached = is_unreached(program, checked.text, it, known[it.place], seconds)


def is_unreached(program: Program, text: bytes, it: Assertion, asserted: Asserted, seconds: float) -> bool:
    """Whether the program proves that a run which comes to this place fails there, and none does."""
    try:
        report = program.check(with_failing(text, asserted), FIRST, seconds)
    except (Late, Malformed):
        return False
    return isinstance(report, Report) and any(found.place == it.place and found.word == "proved" for found in report.verdicts)
