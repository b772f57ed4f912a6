"""The words of the command line."""
import argparse
import os
import sys
from collections.abc import Sequence
from typing import NoReturn

from files import VERSION
from files.engine import Engine

EPILOG = """\
Each `proved` and `can fail` is a line that the proved program printed of this very text, a list of inputs on which its
replay fails there, or a proof of this text that its recheck accepts.

exit status, that of the worst file:
  0  every assertion is proved
  2  one isn't settled
  1  one can fail
  3  a file is refused or can't be read
  4  the words are no command
  5  what was asked for can't be written
 70  there is no program to run
"""


class Words(argparse.ArgumentParser):
    """A parser that ends with status 4 where the words are no command."""

    def error(self, message: str) -> NoReturn:
        """Says what is wrong."""
        self.print_usage(sys.stderr)
        self.exit(4, f"{self.prog}: {message}\n")


def seconds(text: str) -> float:
    """A positive number of seconds."""
    value = float(text)
    if not 0 < value < 1e9:
        raise ValueError
    return value


def workers(text: str) -> int:
    """A number of files that are worked at at once."""
    value = int(text)
    if not 1 <= value <= 1024:
        raise ValueError
    return value


def parser() -> Words:
    """The parser of the words."""
    it = Words(
        prog="smash-files", description="Checks the assertions of C files by the proved program `smash`.", epilog=EPILOG,
        formatter_class=argparse.RawDescriptionHelpFormatter, allow_abbrev=False)
    it.add_argument("files", nargs="*", metavar="FILE", help="a file, a folder (the .c files in it), or - for standard input")
    it.add_argument("-j", type=workers, default=len(os.sched_getaffinity(0)), dest="workers", metavar="N",
                    help="files at once (default: the processors, here %(default)s)")
    add_settling(it)
    add_output(it)
    add_proofs(it)
    it.add_argument("--program", metavar="PATH", help="the proved program (default: what `./smash --which` says)")
    it.add_argument("--version", action="version", version=f"smash-files {VERSION}")
    return it


def add_settling(it: Words) -> None:
    """Words about how long and by what an assertion is worked at."""
    group = it.add_argument_group("settling")
    group.add_argument("--quick", action="store_true", help="the first stage alone: check with 2,000 steps")
    group.add_argument("--time", type=seconds, default=60.0, metavar="SECONDS",
                       help="limit of a file (default %(default)g); a stage gets at most half of what is left, the last one all")
    group.add_argument("--stage-time", type=seconds, default=10.0, metavar="SECONDS", help="limit of a stage (default %(default)g)")
    group.add_argument("--engine", choices=(Engine.name, "none"),
                       help="the last stage: proofs by Z3, each rechecked (default: z3 where it is installed)")
    group.add_argument("--graphs", metavar="PATH", help="the program that prints graphs for the engine (default: the launcher's)")
    group.add_argument("--reach", action="store_true", help="warn of what is proved because no run gets there")


def add_output(it: Words) -> None:
    """Words about what is written."""
    group = it.add_argument_group("output")
    group.add_argument("--format", choices=("gcc", "json", "sarif"), default="gcc", help="default: gcc")
    group.add_argument("--verbose", action="store_true", help="also what is proved, and what is known")
    group.add_argument("--trace", action="store_true", help="runs with all of their steps")
    group.add_argument("--baseline", metavar="FILE", help="what is known to be open, by procedure and text; new ones alone count")
    group.add_argument("--update-baseline", action="store_true", help="write what is open now to the baseline's file")
    group.add_argument("--repro", metavar="FILE", help="write a C file in which the first failing run fails under gcc")


def add_proofs(it: Words) -> None:
    """Words about proofs that are kept."""
    group = it.add_argument_group("proofs")
    group.add_argument("--bundle", metavar="DIR", help="keep a proof of each proved assertion in this folder")
    group.add_argument("--recheck", metavar="DIR", help="settle by the proofs in this folder alone (default: of all files it has)")


def words_of(given: Sequence[str]) -> argparse.Namespace:
    """The words, or an end with status 4."""
    it = parser()
    words = it.parse_args(given)
    if not words.files and not words.recheck:
        it.error("no file is named")
    if words.update_baseline and not words.baseline:
        it.error("--update-baseline needs --baseline FILE")
    if words.recheck and (words.bundle or words.quick or words.reach):
        it.error("--recheck goes with none of --bundle, --quick, --reach")
    if words.files.count("-") > 1:
        it.error("standard input is named twice")
    return words
