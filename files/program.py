"""The proved program: where it is, and its commands on a source's bytes."""
import os
import subprocess

from files.processes import Processes, Ran
from files.reports import Malformed, Refusal, Report, accepted_of, list_text, replay_of, report_of

TOP = os.path.dirname(os.path.dirname(os.path.realpath(__file__)))


class NoProgram(Exception):
    """There is no program to run; the message says why."""


class Late(Exception):
    """A stage was stopped at its limit."""


def find_program(given: str | None) -> str:
    """The path of the program: the one given, or what the launcher beside this folder says."""
    if given is not None:
        path = os.path.abspath(given)
        if not os.path.isfile(path) or not os.access(path, os.X_OK):
            raise NoProgram(f"{given} is no program that can be run")
        return path
    launcher = os.path.join(TOP, "smash")
    try:
        told = subprocess.run([launcher, "--which"], stdin=subprocess.DEVNULL, capture_output=True)
    except OSError as fault:
        raise NoProgram(f"{launcher}: {fault.strerror}") from None
    path = os.fsdecode(told.stdout).removesuffix("\n")
    if told.returncode != 0 or not os.access(path, os.X_OK):
        said = os.fsdecode(told.stderr).strip().split("\n")[-1]
        raise NoProgram(said or f"{launcher} --which ended with status {told.returncode}")
    return path


class Program:
    """The program at a path, each command of which runs in a process group of its own."""

    def __init__(self, path: str, processes: Processes) -> None:
        self.path, self.processes = path, processes

    def run(self, words: list[str], text: bytes, seconds: float) -> Ran:
        """One command; `Late` where it was stopped."""
        if seconds <= 0:
            raise Late
        try:
            ran = self.processes.run([self.path, *words], text, seconds)
        except OSError as fault:
            raise Malformed(f"the program can't be run: {fault.strerror}") from None
        if ran.status is None:
            raise Late
        return ran

    def check(self, text: bytes, budget: int, seconds: float) -> Report | Refusal:
        """`check` with one worker, which says the same each time."""
        ran = self.run(["check", "--workers", "1", "--budget", str(budget)], text, seconds)
        return report_of(ran.output, ran.status)

    def sweep(self, text: bytes, edges: int, seconds: float) -> Report | Refusal:
        """`sweep`."""
        ran = self.run(["sweep", "--edges", str(edges)], text, seconds)
        return report_of(ran.output, ran.status)

    def replay(self, text: bytes, inputs: tuple[int, ...], fuel: int, seconds: float) -> str:
        """The line of a replay."""
        ran = self.run(["replay", "--fuel", str(fuel), list_text(inputs)], text, seconds)
        return replay_of(ran.output, ran.status)

    def bundle(self, text: bytes, number: int, budget: int, seconds: float) -> bytes:
        """What `bundle` prints of an assertion: a proof, or a line that says why there is none."""
        return self.run(["bundle", "--budget", str(budget), str(number)], text, seconds).output

    def recheck(self, bundle: bytes, seconds: float) -> tuple[int, int] | None:
        """The place that `recheck` accepts a bundle for, if it does."""
        ran = self.run(["recheck"], bundle, seconds)
        return accepted_of(ran.output, ran.status)
