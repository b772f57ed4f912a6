"""Folders of tests that have a command of their own: tests/NAME/run PROGRAM [GRAPHS]."""
import os
import re
from collections.abc import Iterator
from pathlib import Path

from suite.cases import Case, Outcome, Setting

# The seconds that a folder's command has.
LIMIT = 1800.0
COUNTS = re.compile(r"(\d+) passed, (\d+) failed(?:, (\d+) skipped)?")


def folder_cases(tests: Path) -> Iterator[Case]:
    """Each folder with a command of its own."""
    for path in sorted(tests.glob("*/run")):
        if os.access(path, os.X_OK):
            yield folder_case(path)


def folder_case(path: Path) -> Case:
    """What a folder's command says: its last line counts, and its status is 0 where nothing failed."""

    def judged(setting: Setting) -> Outcome:
        graphs = [setting.graphs] if setting.graphs else []
        ended = setting.children.run([str(path), setting.program, *graphs], b"", LIMIT)
        text = (ended.out + ended.err).decode(errors="replace").rstrip("\n")
        lines = ended.out.decode(errors="replace").splitlines()
        counts = COUNTS.fullmatch(lines[-1]) if lines else None
        if counts is None:
            return Outcome([f"no last line 'N passed, N failed', status {ended.status}; it said\n{text}"])
        passed, failed, skipped = (int(count or 0) for count in counts.groups())
        outcome = Outcome(passed=passed, failed=failed, note=f"{skipped} left out" if skipped else "")
        if failed or ended.status != 0:
            outcome.faults.append(f"status {ended.status}; it said\n{text}")
            outcome.failed = max(failed, 1)
        return outcome

    return Case(path.parent.name, judged, cost=99)
