"""A table of the labelled programs' folders: assertions, and for each program how many it settles and its processor seconds.

usage: settled.py PROGRAM..
"""

import collections
import re
import sys
from concurrent.futures import ThreadPoolExecutor
from dataclasses import dataclass
from pathlib import Path

from labelled import TOP, Program, labelled, run

WORDS = ["check", "--workers", "1", "--budget", "2000"]
LINE = re.compile(r"(\d+):(\d+): (proved|found|unknown)")
AT_ONCE = 2


@dataclass
class Tally:
    """What a program says of some assertions."""

    settled: int = 0
    wrong: int = 0
    seconds: float = 0.0
    slowest: float = 0.0

    def add(self, other: "Tally") -> None:
        """With those of other assertions."""
        self.settled += other.settled
        self.wrong += other.wrong
        self.seconds += other.seconds
        self.slowest = max(self.slowest, other.slowest)


def tally(checker: str, program: Program) -> Tally:
    """What the checker says of a labelled program."""
    ended = run([checker, *WORDS], program.path.read_bytes())
    found = Tally(seconds=ended.seconds, slowest=ended.seconds)
    for number, it in enumerate(LINE.finditer(ended.text()), 1):
        if it[3] != "unknown":
            right = it[3] == program.truth(number, (int(it[1]), int(it[2])))
            found.settled += right
            found.wrong += not right
    return found


def by_folder(checker: str, programs: list[Program]) -> dict[str, Tally]:
    """The same by folder."""
    folders: dict[str, Tally] = collections.defaultdict(Tally)
    with ThreadPoolExecutor(AT_ONCE) as pool:
        for program, one in zip(programs, pool.map(lambda it: tally(checker, it), programs)):
            folders[program.group].add(one)
    return folders


def main() -> int:
    """Prints the table; 1 where a verdict is wrong."""
    programs = labelled(TOP / "tests")
    counts = collections.Counter[str]()
    for program in programs:
        counts[program.group] += len(program.all_truths())
    tables = [by_folder(checker, programs) for checker in sys.argv[1:]]
    sums = [Tally() for _ in tables]
    print("| folder | assertions |" + " settled | seconds |" * len(tables))
    print("|---|---|" + "---|---|" * len(tables))
    for folder in sorted(counts):
        cells = [table[folder] for table in tables]
        for total, cell in zip(sums, cells):
            total.add(cell)
        print(f"| {folder} | {counts[folder]} |" + "".join(f" {it.settled} | {it.seconds:.1f} |" for it in cells))
    print(f"| all | {counts.total()} |" + "".join(f" {it.settled} | {it.seconds:.1f} |" for it in sums))
    for checker, total in zip(sys.argv[1:], sums):
        print(f"{Path(checker).name}: {total.wrong} wrong, the slowest program {total.slowest:.1f} s")
    return int(any(total.wrong for total in sums))


if __name__ == "__main__":
    sys.exit(main())
