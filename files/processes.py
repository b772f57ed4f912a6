"""Child processes with a limit of time, each in a group of its own, none of which is left behind."""
import os
import select
import signal
import subprocess
import tempfile
import threading
import time
from collections.abc import Sequence
from typing import IO, NamedTuple

# Seconds from the polite signal to the other one, for a stage that has children of its own.
GRACE = 0.5


class Ran(NamedTuple):
    """What a process wrote, and its status: below 0 at a signal, None where it was stopped at its limit."""

    output: bytes
    errors: bytes
    status: int | None
    seconds: float


class Stopped(Exception):
    """Everything is being stopped, so no process begins."""


class Processes:
    """The processes that run now. Threads may share it."""

    def __init__(self) -> None:
        self.lock = threading.Lock()
        self.live: set[int] = set()
        self.is_stopping = False

    def run(self, command: Sequence[str], given: bytes, seconds: float, folder: str | None = None) -> Ran:
        """Runs a command on these bytes. At the limit the command and what it started are killed and reaped."""
        with tempfile.TemporaryFile() as source, tempfile.TemporaryFile() as output, tempfile.TemporaryFile() as errors:
            source.write(given)
            source.seek(0)
            begun = time.monotonic()
            child = self.start(command, source, output, errors, folder)
            is_over = waited(child.pid, seconds)
            self.end(child, is_over)
            output.seek(0)
            errors.seek(0)
            status = child.returncode if is_over and not self.is_stopping else None
            return Ran(output.read(), errors.read(), status, time.monotonic() - begun)

    def start(self, command: Sequence[str], source: IO[bytes], output: IO[bytes], errors: IO[bytes],
              folder: str | None) -> "subprocess.Popen[bytes]":
        """Begins a process in a group of its own, unless everything is being stopped."""
        with self.lock:
            if self.is_stopping:
                raise Stopped
            child = subprocess.Popen(
                command, stdin=source, stdout=output, stderr=errors, cwd=folder, start_new_session=True)
            self.live.add(child.pid)
            return child

    def end(self, child: "subprocess.Popen[bytes]", is_over: bool) -> None:
        """Kills what is left of a process's group and reaps it. Until it is reaped its number is no other's."""
        if not is_over:
            signalled(child.pid, signal.SIGTERM)
            waited(child.pid, GRACE)
        signalled(child.pid, signal.SIGKILL)
        waited(child.pid, None)
        with self.lock:
            self.live.discard(child.pid)
            child.wait()

    def stop(self) -> None:
        """Kills all that runs, and lets nothing begin any more. The threads that wait for them reap them."""
        with self.lock:
            self.is_stopping = True
            for group in self.live:
                signalled(group, signal.SIGTERM)
            left = set(self.live)
        until = time.monotonic() + GRACE
        while left and time.monotonic() < until:
            time.sleep(0.01)
            with self.lock:
                left &= self.live
        with self.lock:
            for group in self.live:
                signalled(group, signal.SIGKILL)


def signalled(group: int, number: int) -> None:
    """Sends a signal to a group, if any of it is left."""
    try:
        os.killpg(group, number)
    except (ProcessLookupError, PermissionError):
        pass


def waited(pid: int, seconds: float | None) -> bool:
    """Waits until a child has ended, and leaves it to be reaped; false where the seconds passed before."""
    options = os.WEXITED | os.WNOWAIT
    if seconds is None:
        os.waitid(os.P_PID, pid, options)
        return True
    try:
        handle = os.pidfd_open(pid)
    except OSError:
        return polled(pid, seconds)
    try:
        poll = select.poll()
        poll.register(handle, select.POLLIN)
        return bool(poll.poll(max(0.0, seconds) * 1000))
    finally:
        os.close(handle)


def polled(pid: int, seconds: float) -> bool:
    """As `waited`, on a kernel that has no handles of processes."""
    until, pause = time.monotonic() + seconds, 0.0005
    while os.waitid(os.P_PID, pid, os.WEXITED | os.WNOWAIT | os.WNOHANG) is None:
        if time.monotonic() >= until:
            return False
        time.sleep(pause)
        pause = min(pause * 2, 0.02)
    return True
