"""Runs programs with a limit of seconds, several at once, and leaves none behind."""
import os
import signal
import subprocess
import threading
import time
from collections.abc import Sequence
from dataclasses import dataclass
from pathlib import Path
from typing import Any

# The seconds that programs have to end by themselves once they are asked to.
GRACE = 3.0


class Stopped(Exception):
    """The tests are being stopped, and no program is started any more."""


@dataclass(frozen=True)
class Ended:
    """How a program ended: its status is below zero for a signal, and None where it was still running at the limit."""

    status: int | None
    out: bytes
    err: bytes


class Children:
    """The programs that are running, each with a process group of its own."""

    def __init__(self) -> None:
        self._lock = threading.Lock()
        self._running: set[subprocess.Popen[bytes]] = set()
        self._is_stopped = False

    def run(self, command: Sequence[str], source: bytes, limit: float) -> Ended:
        """Runs a command on these bytes. What it started goes with it where it meets the limit."""
        pipe = subprocess.PIPE
        child = self._started(command, stdin=pipe, stdout=pipe, stderr=pipe)
        try:
            out, err = child.communicate(source, timeout=limit)
            status = child.returncode
        except subprocess.TimeoutExpired:
            end_groups([child])
            status, out, err = None, *rest_of(child)
        finally:
            with self._lock:
                self._running.discard(child)
        if self._is_stopped:
            raise Stopped
        return Ended(status, out, err)

    def follow(self, command: Sequence[str], folder: Path) -> int:
        """Runs a command in a folder, with the streams of the tests, and returns its status."""
        child = self._started(command, cwd=folder, stdin=subprocess.DEVNULL)
        try:
            return child.wait()
        finally:
            with self._lock:
                self._running.discard(child)

    def stop(self) -> None:
        """Ends all programs and what they started."""
        with self._lock:
            self._is_stopped = True
            running = [*self._running]
        end_groups(running)

    def _started(self, command: Sequence[str], **streams: Any) -> subprocess.Popen[bytes]:
        with self._lock:
            if self._is_stopped:
                raise Stopped
            child = subprocess.Popen([*command], start_new_session=True, **streams)
            self._running.add(child)
        return child


def end_groups(children: Sequence[subprocess.Popen[bytes]]) -> None:
    """Asks the groups of these programs to end, and ends what is left of them a little later."""
    for child in children:
        tell(child, signal.SIGTERM)
    until = time.monotonic() + GRACE
    while time.monotonic() < until and any(is_left(child) for child in children):
        time.sleep(0.02)
    for child in children:
        tell(child, signal.SIGKILL)
        child.wait()


def is_left(child: subprocess.Popen[bytes]) -> bool:
    """Whether a program is running, or another one of its group."""
    return child.poll() is None or tell(child, 0)


def tell(child: subprocess.Popen[bytes], sign: int) -> bool:
    """Sends a signal to the group of a program, and says whether there is one left."""
    try:
        os.killpg(child.pid, sign)
    except (ProcessLookupError, PermissionError):
        return False
    return True


def rest_of(child: subprocess.Popen[bytes]) -> tuple[bytes, bytes]:
    """What an ended program has written."""
    try:
        return child.communicate(timeout=GRACE)
    except subprocess.TimeoutExpired:
        return b"", b""
