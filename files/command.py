"""The command `smash-files`: from its words to its lines and its status."""
import argparse
import os
import signal
import sys
from collections import Counter
from collections.abc import Callable, Sequence
from types import FrameType

from files import proofs
from files.baseline import BadBaseline, Key, mark_known, read_baseline, write_baseline
from files.engine import Engine
from files.gathering import gathered, read
from files.hints import hints_of
from files.json_format import json_text
from files.parallel import checked_files, progress_of
from files.processes import Processes
from files.program import NoProgram, Program, find_program
from files.reach import add_reach
from files.repro import reproducer
from files.results import FOUND, OPEN, Checked, worst
from files.sarif import sarif_text
from files.settling import Limits, Settler
from files.source import assertions_of
from files.text_format import TextFormat
from files.trace import add_traces
from files.words import words_of
from files.writing import written

CANT_WRITE, NO_PROGRAM = 5, 70
SIGNALS = (signal.SIGINT, signal.SIGTERM, signal.SIGHUP)


class Interrupted(Exception):
    """A signal came."""

    def __init__(self, number: int) -> None:
        super().__init__(number)
        self.number = number


class Unwritten(Exception):
    """Something that was asked for can't be written."""


class Command:
    """One run of the command."""

    def __init__(self, words: argparse.Namespace, program: Program, engine: Engine | None) -> None:
        self.words, self.program, self.engine = words, program, engine
        self.limits = Limits(words.time, words.stage_time, words.quick)
        self.known: Counter[Key] = Counter()
        self.files: list[Checked] = []
        is_coloured = sys.stdout.isatty() and not os.environ.get("NO_COLOR") and os.environ.get("TERM") != "dumb"
        self.text = TextFormat(is_coloured, words.verbose, words.trace)

    def work(self, name: str, fault: str, tell: Callable[[str], None]) -> Checked:
        """Finds out all about one file."""
        checked = read(name, fault)
        if checked.text is None:
            return checked
        if self.words.recheck:
            self.recheck(checked, tell)
        else:
            Settler(self.program, checked.text, self.limits, self.engine, tell).settle(checked)
        if checked.refusal is not None:
            checked.hints = hints_of(checked.text, checked.refusal)
            return checked
        known = assertions_of(checked.text)
        for it in checked.assertions:
            if it.place in known:
                it.procedure, it.text = known[it.place].procedure, known[it.place].text
        self.add_what_is_asked(checked, tell)
        return checked

    def recheck(self, checked: Checked, tell: Callable[[str], None]) -> None:
        """Settles a file by the proofs that are kept."""
        tell("recheck")
        Settler(self.program, checked.text or b"", Limits(self.limits.file, self.limits.stage, True), None, tell).name(checked)
        proofs.recheck(self.program, checked, self.words.recheck, self.limits.stage)

    def add_what_is_asked(self, checked: Checked, tell: Callable[[str], None]) -> None:
        """Traces, proofs and what is reached."""
        if any(it.state == FOUND for it in checked.assertions):
            tell("trace")
            add_traces(self.program, checked, self.words.trace, self.limits.stage)
        if self.words.reach:
            tell("reach")
            add_reach(self.program, checked, self.limits.stage)
        if self.words.bundle:
            tell("bundle")
            proofs.keep(self.program, self.engine, checked, self.words.bundle, self.limits.stage)

    # The whole

    def run(self) -> int:
        """Checks all files, writes what is asked for, and gives the status."""
        if self.words.baseline and not (self.words.update_baseline and not os.path.exists(self.words.baseline)):
            self.known = read_baseline(self.words.baseline)
        if self.words.bundle:
            made(self.words.bundle)
        names = gathered(self.words.files or proofs.sources_in(self.words.recheck))
        progress = progress_of(len(names))
        for checked in checked_files(names, self.words.workers, self.work, progress, self.program.processes.stop):
            self.files.append(checked)
            if not self.words.update_baseline:
                mark_known([checked], self.known)
            if self.words.format == "gcc":
                told(self.text.file(checked))
        self.finish()
        return worst(self.files)

    def finish(self) -> None:
        """What comes when all files are done."""
        if self.words.update_baseline:
            saved(self.words.baseline, lambda: write_baseline(self.words.baseline, self.files))
            mark_known(self.files, read_baseline(self.words.baseline))
        if self.words.format == "gcc":
            told([self.text.summary(self.files)])
        elif self.words.format == "json":
            told([json_text(self.files).removesuffix("\n")])
        else:
            told([sarif_text(self.files, self.words.verbose, bool(self.words.baseline)).removesuffix("\n")])
        if self.words.repro:
            self.reproduce()

    def reproduce(self) -> None:
        """Writes the C file of the first failing run."""
        for checked in self.files:
            for it in checked.assertions:
                if it.state == FOUND and checked.text is not None:
                    content = reproducer(checked.name, checked.text, it.place, it.inputs)
                    saved(self.words.repro, lambda: written(self.words.repro, content))
                    return
        print("smash-files: no assertion can fail, so there is nothing to reproduce", file=sys.stderr)


def told(lines: Sequence[str]) -> None:
    """Writes lines to standard output; a name that is no UTF-8 is written as its bytes."""
    if not lines:
        return
    try:
        sys.stdout.buffer.write("".join(f"{it}\n" for it in lines).encode("utf-8", "surrogateescape"))
        sys.stdout.buffer.flush()
    except OSError as fault:
        raise Unwritten(f"standard output: {fault.strerror}") from None


def saved(path: str, write: Callable[[], None]) -> None:
    """Writes a file that was asked for."""
    try:
        write()
    except OSError as fault:
        raise Unwritten(f"{path}: {fault.strerror}") from None


def made(folder: str) -> None:
    """Makes a folder, if it isn't there."""
    saved(folder, lambda: os.makedirs(folder, exist_ok=True))


def engine_of(words: argparse.Namespace, program: Program) -> Engine | None:
    """The engine of the last stage, if there is to be one."""
    engine = Engine(program, words.graphs)
    if words.engine == Engine.name and not engine.is_there():
        raise NoProgram("there is no z3 on the path, or no folder outside/ beside smash-files: --engine none does without")
    return engine if words.engine != "none" and not words.quick and engine.is_there() else None


def on_signal(number: int, _: FrameType | None) -> None:
    """A signal ends the main thread's work; later ones change nothing."""
    for it in SIGNALS:
        signal.signal(it, signal.SIG_IGN)
    raise Interrupted(number)


def main(given: Sequence[str]) -> int:
    """The status of the command."""
    words = words_of(given)
    processes = Processes()
    for number in SIGNALS:
        if signal.getsignal(number) != signal.SIG_IGN:
            signal.signal(number, on_signal)
    try:
        program = Program(find_program(words.program), processes)
        return Command(words, program, engine_of(words, program)).run()
    except Interrupted as it:
        return 128 + it.number
    except (NoProgram, BadBaseline, Unwritten, OSError) as fault:
        print(f"smash-files: {fault}", file=sys.stderr)
        return NO_PROGRAM if isinstance(fault, NoProgram) else 4 if isinstance(fault, BadBaseline) else CANT_WRITE
    finally:
        processes.stop()
