"""What each stage of `smash-files` settles of labelled programs; bench/files.sh says how it is called."""
import argparse
import os
import sys
import time
from collections import Counter, defaultdict
from collections.abc import Callable
from concurrent.futures import ThreadPoolExecutor

TOP = os.path.dirname(os.path.dirname(os.path.realpath(__file__)))
sys.path[:0] = [TOP, os.path.join(TOP, "tests", "files")]

from labels import Labelled, labelled, truth_of  # noqa: E402

from files.engine import Engine  # noqa: E402
from files.processes import Processes  # noqa: E402
from files.program import Program  # noqa: E402
from files.results import FOUND, OPEN, PROVED, Checked  # noqa: E402
from files.settling import Limits, Settler  # noqa: E402


class Clock:
    """Seconds by stage."""

    def __init__(self) -> None:
        self.seconds: defaultdict[str, float] = defaultdict(float)
        self.asked: Counter[str] = Counter()

    def teller(self) -> Callable[[str], None]:
        """What is told which stage a file is at; the last call says that it is done."""
        begun: list[tuple[str, float]] = [("", time.monotonic())]

        def tell(stage: str) -> None:
            before, since = begun.pop()
            after = time.monotonic()
            self.seconds[before] += after - since
            self.asked[stage] += stage != before
            begun.append((stage, after))
        return tell


def settled(it: Labelled, program: Program, words: argparse.Namespace, clock: Clock) -> Checked:
    """What is found out about a program."""
    with open(it.path, "rb") as file:
        checked = Checked(it.name, file.read())
    engine = Engine(program, words.graphs) if words.engine == Engine.name else None
    tell = clock.teller()
    Settler(program, checked.text or b"", Limits(words.time, words.stage_time), engine, tell).settle(checked)
    tell("")
    return checked


def wrong_of(it: Labelled, checked: Checked) -> list[str]:
    """What is wrong."""
    told = [f"{it.name}: {checked.fault}"] if checked.fault else []
    for one in checked.assertions:
        truth = truth_of(it, one.place, one.number)
        if (one.state, truth) in ((PROVED, "found"), (FOUND, "proved")):
            told.append(f"{it.name}:{one.place[0]}:{one.place[1]}: {one.state} by {one.stage}, and {truth} is true")
    return told


def words_of() -> argparse.Namespace:
    """The words."""
    parser = argparse.ArgumentParser(description=__doc__)
    parser.add_argument("program")
    parser.add_argument("folders", nargs="+")
    parser.add_argument("--workers", type=int, default=4)
    parser.add_argument("--time", type=float, default=60.0)
    parser.add_argument("--stage-time", type=float, default=10.0)
    parser.add_argument("--engine", choices=(Engine.name, "none"), default="none")
    parser.add_argument("--graphs")
    return parser.parse_args()


def main() -> int:
    """Prints a line for each stage, and what is wrong."""
    words = words_of()
    program, clock = Program(os.path.abspath(words.program), Processes()), Clock()
    programs = [it for folder in words.folders for it in labelled(folder)]
    begun = time.monotonic()
    with ThreadPoolExecutor(words.workers) as pool:
        files = list(pool.map(lambda it: settled(it, program, words, clock), programs))
    seconds = time.monotonic() - begun
    every = [it for checked in files for it in checked.assertions]
    print(f"{'stage':14} {'files':>6} {'proved':>7} {'can fail':>9} {'seconds':>8}")
    for stage in [it for it in clock.asked if it]:
        by = [it for it in every if stage in it.stage.split(", ")]
        counts = Counter(it.state for it in by)
        print(f"{stage:14} {clock.asked[stage]:6} {counts[PROVED]:7} {counts[FOUND]:9} {clock.seconds[stage]:8.1f}")
    wrong = [line for it, checked in zip(programs, files) for line in wrong_of(it, checked)]
    for line in wrong:
        print(f"WRONG {line}")
    left = sum(it.state == OPEN for it in every)
    print(f"{len(every) - left} settled of {len(every)} in {len(files)} files, {seconds:.1f} s by the clock, {len(wrong)} wrong")
    return 1 if wrong else 0


if __name__ == "__main__":
    sys.exit(main())
