"""What the tests of `smash-files` share: where it is, the program, runs of both, and stand-ins for the program."""
import ast
import json
import os
import subprocess
import sys
import tempfile
import textwrap
import time
import unittest
from collections.abc import Mapping, Sequence
from typing import Any

HERE = os.path.dirname(os.path.realpath(__file__))
TOP = os.environ.get("SMASH_FILES_TOP") or os.path.dirname(os.path.dirname(HERE))
PROGRAM = os.environ.get("SMASH_PROGRAM", "")
GRAPHS = os.environ.get("SMASH_GRAPHS", "")
COMMAND = os.path.join(TOP, "smash-files")
REPOSITORY = os.path.dirname(os.path.dirname(HERE))

sys.path.insert(0, TOP)

# A program that answers by a table: its words, and the source if the table has several, give what it prints.
STAND_IN = """\
#!{python} -IS
import os, sys
here = os.path.dirname(os.path.realpath(__file__))
words, source = " ".join(sys.argv[1:]), sys.stdin.buffer.read().decode("latin-1")
with open(here + "/table") as file:
    table = eval(file.read())
with open(here + "/asked", "a") as file:
    file.write(repr((words, source)) + "\\n")
row = table.get(words + "|" + source) or table.get(words) or table.get(words.split(" ")[0]) or {{}}
if row.get("child"):
    os.spawnvp(os.P_NOWAIT, "sleep", ["sleep", row["child"]])
if row.get("deaf"):
    import signal
    signal.signal(signal.SIGTERM, signal.SIG_IGN)
if row.get("sleep"):
    import time
    time.sleep(row["sleep"])
sys.stdout.buffer.write(row.get("output", "").encode("latin-1"))
sys.stdout.flush()
if row.get("signal"):
    os.kill(os.getpid(), row["signal"])
sys.exit(row.get("status", 0))
"""


class Case(unittest.TestCase):
    """A test with a folder of its own."""

    maxDiff = None

    def setUp(self) -> None:
        held = tempfile.TemporaryDirectory()
        self.addCleanup(held.cleanup)
        self.room = os.path.realpath(held.name)

    def file(self, name: str, text: str | bytes) -> str:
        """Writes a file of the test's folder, and gives its path."""
        path = os.path.join(self.room, name)
        os.makedirs(os.path.dirname(path), exist_ok=True)
        with open(path, "wb") as file:
            file.write(text.encode("latin-1") if isinstance(text, str) else text)
        return path

    def stand_in(self, table: Mapping[str, Mapping[str, Any]]) -> str:
        """A stand-in for the program, by the table of its answers."""
        self.file("stand-in/table", repr(table))
        path = self.file("stand-in/smash", STAND_IN.format(python=sys.executable))
        os.chmod(path, 0o755)
        return path

    def asked(self) -> list[tuple[str, str]]:
        """The words and the source of each run of the stand-in."""
        with open(os.path.join(self.room, "stand-in", "asked"), encoding="utf-8") as file:
            return [ast.literal_eval(line) for line in file]

    def patience(self) -> float:
        """Seconds in which the stand-in surely answers, on a machine that is as busy as it is now."""
        begun = time.monotonic()
        subprocess.run([self.stand_in({}), "check"], stdin=subprocess.DEVNULL, check=True)
        os.unlink(os.path.join(self.room, "stand-in", "asked"))
        return round(1 + 15 * (time.monotonic() - begun), 1)

    def run_command(self, words: Sequence[str | bytes], program: str = PROGRAM, given: bytes = b"",
                    **more: str) -> "subprocess.CompletedProcess[bytes]":
        """A run of `smash-files` in the test's folder, without the engine if nothing else is said."""
        engine = [] if any(it == "--engine" for it in words) else ["--engine", "none"]
        return subprocess.run(
            [sys.executable, COMMAND, "--program", program, *engine, *words], input=given, capture_output=True,
            cwd=self.room, env=os.environ | more, timeout=600)

    def lines(self, words: Sequence[str | bytes], program: str = PROGRAM, given: bytes = b"") -> tuple[list[str], int]:
        """The lines and the status of a run that says nothing on standard error."""
        done = self.run_command(words, program, given)
        self.assertEqual(done.stderr.decode(), "")
        return done.stdout.decode("utf-8", "surrogateescape").split("\n")[:-1], done.returncode

    def json(self, words: Sequence[str | bytes], program: str = PROGRAM) -> dict[str, Any]:
        """What a run says as JSON."""
        done = self.run_command([*words, "--format", "json"], program)
        held: dict[str, Any] = json.loads(done.stdout)
        self.assertEqual(held["status"], done.returncode)
        return held


def dedented(text: str) -> str:
    """A text without what all of its lines begin with."""
    return textwrap.dedent(text).lstrip("\n")


def report(*verdicts: str) -> dict[str, Any]:
    """What the program prints and its status for these lines of verdicts."""
    counts = [sum(f": {word}" in it for it in verdicts) for word in ("proved", "found", "unknown")]
    lines = [*verdicts, "summary: %d proved, %d found, %d unknown" % tuple(counts)]
    return {"output": "".join(f"{it}\n" for it in lines), "status": 1 if counts[1] else 2 if counts[2] else 0}
