"""Proofs by an engine from the outside, which nothing trusts: a proof counts where the proved `recheck` accepts it."""
import os
import shutil
import sys
import tempfile

from files.program import TOP, Late, Program
from files.reports import Malformed, Place, bundle_of

REASONS = {1: "says that some run gets there", 2: "gave up", 3: "refused the source"}


class Engine:
    """Z3, called by the folder `outside/` of this repository."""

    name = "z3"

    def __init__(self, program: Program, graphs: str | None, folder: str = TOP) -> None:
        self.program, self.graphs, self.folder = program, graphs, folder

    def is_there(self) -> bool:
        """Whether the engine and what calls it are there."""
        return shutil.which("z3") is not None and os.path.isfile(os.path.join(self.folder, "outside", "__main__.py"))

    def command(self, number: int, seconds: float, path: str) -> list[str]:
        """The words of one question."""
        words = [sys.executable, "-m", "outside", str(number), "--seconds", str(max(1, int(seconds)))]
        return words + (["--graphs", self.graphs] if self.graphs else []) + [path]

    def proof(self, text: bytes, number: int, place: Place, seconds: float) -> tuple[bytes | None, str]:
        """A proof of this assertion of this text that `recheck` accepts, or none and why."""
        if seconds <= 0:
            raise Late
        with tempfile.NamedTemporaryFile(prefix="smash-files.", suffix=".c") as source:
            source.write(text)
            source.flush()
            ran = self.program.processes.run(self.command(number, seconds, source.name), b"", seconds, self.folder)
        if ran.status is None:
            raise Late
        if ran.status != 0:
            return None, f"{self.name} {REASONS.get(ran.status, 'failed')}"
        if is_proof(self.program, ran.output, text, number, place, seconds):
            return ran.output, ""
        return None, f"{self.name}'s proof isn't accepted"


def is_proof(program: Program, bundle: bytes, text: bytes, number: int, place: Place, seconds: float) -> bool:
    """Whether `recheck` accepts a bundle, and the bundle is one of these very bytes and of this assertion."""
    if bundle_of(bundle) != (text, number):
        return False
    try:
        return program.recheck(bundle, seconds) == place
    except Malformed:
        return False
