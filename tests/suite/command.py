"""The command ./test."""
import argparse
import concurrent.futures
import os
import signal
import subprocess
import sys
from collections.abc import Iterable, Sequence
from pathlib import Path
from types import FrameType

from suite.cases import Case, Outcome, Setting, difference
from suite.children import Children
from suite.examples import example_cases
from suite.folders import folder_cases
from suite.labelled import labelled_cases
from suite.pages import page_cases
from suite.refused import refused_cases
from suite.rows import row_cases
from suite.tally import Tally, check_floors, said

# The status where there is no program to test, as the launcher has it.
NO_PROGRAM = 70
USAGE = "Tests smash: worked rows, examples, refused sources and labelled programs."
MORE = """The last line is `N passed, N failed`, and the status 0 where nothing failed. Without --program it tests the
program that ./smash would run; where there is none, the status is 70. tests/README.md says what is tested."""


class Interrupted(Exception):
    """A signal asks for an end."""


def main(top: Path, arguments: Sequence[str]) -> int:
    """Runs the tests, and returns the status."""
    words = words_of(arguments)
    children = Children()
    listen()
    try:
        programs = programs_of(top, words)
        return NO_PROGRAM if programs is None else tested(Setting(top, *programs, words.limit, children), words)
    except Interrupted as fault:
        return int(fault.args[0]) + 128
    finally:
        deafen()
        children.stop()


def words_of(arguments: Sequence[str]) -> argparse.Namespace:
    """Reads the words of the command line."""
    parser = argparse.ArgumentParser(prog="test", description=USAGE, epilog=MORE)
    parser.add_argument("--program", metavar="PATH", help="the program to test")
    parser.add_argument("--graphs", metavar="PATH", help="the program that prints graphs, for the folders of tests/ that need it")
    parser.add_argument("--jobs", metavar="N", type=positive, default=len(os.sched_getaffinity(0)), help="how many programs run at once (one for each processor)")
    parser.add_argument("--only", metavar="TEXT", action="append", help="only cases whose name contains this, as rows/lock; also twice")
    parser.add_argument("--limit", metavar="SECONDS", type=positive, default=300, help="for each run of the program (300)")
    parser.add_argument("--all", action="store_true", help="then the gate from nothing: all proofs and tests, an hour or more")
    return parser.parse_args(arguments)


def positive(text: str) -> int:
    """A number from 1 on."""
    if int(text) < 1:
        raise ValueError(text)
    return int(text)


def listen() -> None:
    """Makes signals end the tests, unless they are ignored, as under nohup."""
    for sign in (signal.SIGHUP, signal.SIGINT, signal.SIGTERM):
        if signal.getsignal(sign) is not signal.SIG_IGN:
            signal.signal(sign, interrupted)


def deafen() -> None:
    """Lets no further signal disturb the end."""
    for sign in (signal.SIGHUP, signal.SIGINT, signal.SIGTERM):
        signal.signal(sign, signal.SIG_IGN)


def interrupted(sign: int, _: FrameType | None) -> None:
    """What the first signal does. Further ones don't disturb the end."""
    deafen()
    raise Interrupted(sign)


def programs_of(top: Path, words: argparse.Namespace) -> tuple[str, str] | None:
    """The paths of the program to test and of the one that prints graphs: those that are given, or that the launcher would
    run. The second is empty where there is none. Where the first can't be had, standard error says why."""
    if words.program:
        program, graphs = runnable(words.program), ""
    else:
        program, graphs = of_launcher(top, None), of_launcher(top, subprocess.DEVNULL, "graphs") or ""
    given = runnable(words.graphs) if words.graphs else graphs
    return None if program is None or given is None else (program, given)


def of_launcher(top: Path, errors: int | None, *words: str) -> str | None:
    """What the launcher would run, if it says that there is one."""
    launcher = runnable(str(top / "smash"))
    if launcher is None:
        return None
    command = [launcher, "--which", *words]
    asked = subprocess.run(command, stdin=subprocess.DEVNULL, stdout=subprocess.PIPE, stderr=errors, text=True, check=False)
    return runnable(asked.stdout.removesuffix("\n")) if asked.returncode == 0 else None


def runnable(given: str) -> str | None:
    """The whole path of a program. Where it can't be run, standard error says so."""
    path = os.path.abspath(given)
    if os.path.isfile(path) and os.access(path, os.X_OK):
        return path
    print(f"test: {given} isn't a program that can be run", file=sys.stderr)
    return None


def tested(setting: Setting, words: argparse.Namespace) -> int:
    """Runs all cases that are asked for, prints their outcomes, and returns the status."""
    wanted = words.only or [""]
    cases = [case for case in all_cases(setting.tests) if any(text in case.name for text in wanted)]
    if not cases:
        print(f"test: no case has a name with '{' or '.join(wanted)}'", file=sys.stderr)
    tally = Tally()
    for case in cases:
        tally.passed[case.group] += 0
    run_cases(cases, setting, words.jobs, tally)
    show("floors", check_floors(setting.tests, tally))
    for line in said(setting.tests, tally):
        print(line, flush=True)
    if words.all:
        run_gate(setting, tally)
    passed, failed = sum(tally.passed.values()), sum(tally.failed.values())
    print(f"{passed} passed, {failed} failed", flush=True)
    return 1 if failed or not passed else 0


def all_cases(tests: Path) -> Iterable[Case]:
    """All cases, group by group."""
    for cases in (row_cases, example_cases, refused_cases, labelled_cases, folder_cases):
        yield from cases(tests)
    yield from page_cases(tests.parent)


def run_cases(cases: Sequence[Case], setting: Setting, jobs: int, tally: Tally) -> None:
    """Runs cases, several at once and dear ones first, and shows each that fails."""
    dear = sorted(cases, key=lambda case: -case.cost)
    with concurrent.futures.ThreadPoolExecutor(jobs) as pool:
        try:
            running = {pool.submit(judged, case, setting): case for case in dear}
            for done, future in enumerate(concurrent.futures.as_completed(running), 1):
                case, outcome = running[future], future.result()
                tally.add(case, outcome)
                show(case.name, outcome.faults)
                progress(f"{done} of {len(cases)}" if done < len(cases) else "")
        except BaseException:
            deafen()
            pool.shutdown(wait=False, cancel_futures=True)
            setting.children.stop()
            raise


def judged(case: Case, setting: Setting) -> Outcome:
    """The outcome of a case. A program that the system can't run is a fault of each."""
    try:
        return case.judge(setting)
    except (OSError, ValueError) as fault:
        return Outcome([f"can't be tested: {fault}"])


def show(name: str, faults: Sequence[str]) -> None:
    """Prints what is wrong with a case."""
    if faults:
        text = "\n".join(faults).replace("\n", "\n  ")
        progress("")
        print(f"FAILED {name}\n  {text}", flush=True)


def progress(text: str) -> None:
    """Puts a text into the last line of a terminal, if standard error is one, in place of what stood there."""
    if sys.stderr.isatty():
        print(f"\r\033[K{text}", end="", file=sys.stderr, flush=True)


def run_gate(setting: Setting, tally: Tally) -> None:
    """Runs the gate, if all tests passed, and counts it."""
    if any(tally.failed.values()):
        print("the gate isn't run, since tests failed", flush=True)
        return
    try:
        status = setting.children.follow(["rt", "ci"], setting.top)
        show("gate", difference("status of rt ci", 0, status))
    except FileNotFoundError:
        status = None
        show("gate", ["rt, the kit's command that proves and builds, isn't on the path"])
    tally.count("gate", status == 0)

