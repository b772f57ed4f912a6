"""`python3 -m outside K [--seconds N] [--graphs PROGRAM] FILE > bundle`.

Looks for a proof of assertion K of FILE, counted from 1, with Debian's z3, and writes it as a bundle
that `smash recheck` accepts or not. The statuses: 0 a bundle was written; 1 z3 says that the
assertion can fail (nothing is claimed); 2 it gave up, and standard error has the reason; 3 the
source is refused or can't be read; 4 the words are no command; 6 a write failed.
"""

import argparse
import signal
import subprocess
import sys
from pathlib import Path
from typing import NoReturn

from outside.bundle import print_bundle
from outside.graphs import BadGraphs, Graphs, read_graphs
from outside.invariants import GaveUp
from outside.search import find_bundle
from outside.solving import solver_path, version_note
from outside.spacer import Reached

TOP = Path(__file__).resolve().parent.parent
GRAPHS_SECONDS = 60.0


class Refused(Exception):
    """The source isn't taken."""


class Words(argparse.ArgumentParser):
    """Words that are no command end with status 4."""

    def error(self, message: str) -> NoReturn:
        """Says what is wrong with the words."""
        self.print_usage(sys.stderr)
        self.exit(4, f"{self.prog}: {message}\n")


def positive(text: str) -> float:
    """A number of seconds above 0."""
    seconds = float(text)
    if not 0 < seconds < 1e6:
        raise ValueError
    return seconds


def words() -> argparse.Namespace:
    """The words of the command line."""
    parser = Words(prog="python3 -m outside", description="a proof by z3 as a bundle")
    parser.add_argument("assertion", metavar="K", type=int, help="the assertion, from 1")
    parser.add_argument("file", metavar="FILE", help="the source")
    parser.add_argument("--seconds", metavar="N", type=positive, default=10.0)
    parser.add_argument("--graphs", metavar="PROGRAM", help="prints the graphs of a source")
    parser.add_argument("--trace", action="store_true", help="says what was tried")
    return parser.parse_args()


def graphs_program() -> str:
    """The program that the launcher names."""
    launcher = str(TOP / "smash")
    try:
        done = subprocess.run([launcher, "--which", "graphs"], capture_output=True, text=True)
    except OSError as fault:
        raise GaveUp(f"{launcher} doesn't run: {fault.strerror}") from None
    path = done.stdout.strip()
    if done.returncode or not path:
        raise GaveUp(f"there is no program that prints graphs: {done.stderr.strip()[:200]}")
    return path


def read_source(path: str) -> bytes:
    """The bytes of a file."""
    try:
        return Path(path).read_bytes()
    except OSError as fault:
        raise Refused(f"{path} can't be read: {fault.strerror}") from None


def graphs_of(source: bytes, program: str) -> Graphs:
    """The graphs of a source, as the program prints them."""
    try:
        done = subprocess.run([program], input=source, capture_output=True, timeout=GRAPHS_SECONDS)
    except OSError as fault:
        raise GaveUp(f"{program} doesn't run: {fault.strerror}") from None
    except subprocess.TimeoutExpired:
        raise GaveUp(f"{program} prints no graphs in {GRAPHS_SECONDS:.0f} seconds") from None
    text = done.stdout.decode("utf-8", "replace")
    if done.returncode == 3:
        raise Refused(text.strip())
    if done.returncode:
        raise GaveUp(f"{program} ended with status {done.returncode}")
    try:
        return read_graphs(text)
    except BadGraphs as fault:
        raise GaveUp(f"{program} prints no graphs: {fault}") from None


def trace(text: str) -> None:
    """A note on standard error."""
    print(text, file=sys.stderr)


def run(given: argparse.Namespace) -> bytes:
    """The bundle's text."""
    source = read_source(given.file)
    graphs = graphs_of(source, given.graphs or graphs_program())
    if not 1 <= given.assertion <= graphs.assertions():
        raise Refused("refused: no such assertion")
    note = trace if given.trace else lambda _: None
    bundle = find_bundle(graphs, given.assertion - 1, given.seconds, note)
    return print_bundle(bundle, source)


def gave_up(why: GaveUp) -> int:
    """Says why there is no bundle."""
    trace(f"gave up: {why}")
    try:
        note = version_note(solver_path())
    except Exception:  # z3 isn't there, which the reason says
        note = ""
    if note:
        trace(note)
    return 2


def main() -> int:
    """The command, with its status."""
    sys.setrecursionlimit(20_000)
    for kind in (signal.SIGTERM, signal.SIGHUP):
        signal.signal(kind, lambda number, _: sys.exit(128 + number))
    given = words()
    try:
        text = run(given)
    except Reached as why:
        trace(str(why))
        return 1
    except GaveUp as why:
        return gave_up(why)
    except Refused as why:
        trace(str(why))
        return 3
    try:
        sys.stdout.buffer.write(text)
        sys.stdout.buffer.flush()
    except OSError as fault:
        trace(f"the bundle can't be written: {fault.strerror}")
        return 6
    return 0


if __name__ == "__main__":
    try:
        sys.exit(main())
    except KeyboardInterrupt:
        sys.exit(130)
