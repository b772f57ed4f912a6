"""Programs that are run with limits of seconds and of bytes, and of which nothing is left.

Each runs in a group of processes of its own, which is killed at the end in any case.
"""

import os
import selectors
import signal
import subprocess
import tempfile
import threading
import time
from collections.abc import Iterator, Sequence
from contextlib import contextmanager
from dataclasses import dataclass

from outside import clock

WAKING = 0.2
INTERRUPTIONS = (signal.SIGINT, signal.SIGTERM, signal.SIGHUP)


class TimeOver(Exception):
    """The program didn't end within its seconds."""


class TooLong(Exception):
    """The program printed more than its bytes."""


class Interrupted(Exception):
    """All programs are being ended, so none is begun."""


@dataclass(frozen=True)
class Ended:
    """How a program ended, and what it printed."""

    status: int
    output: bytes
    errors: str


@dataclass(frozen=True)
class Limits:
    """The seconds and bytes that a program has, and the seconds to end once it is asked to.

    Where it is `worked`, the seconds are those of the search's clock, else those of the wall.
    """

    seconds: float
    output: int = 64_000_000
    grace: float = 0.0
    worked: bool = False


_running: set[int] = set()
_lock = threading.Lock()
_ending = threading.Event()


@contextmanager
def _held() -> Iterator[None]:
    """Holds interruptions back, so that none comes between a program's start and its record."""
    if threading.current_thread() is not threading.main_thread():
        yield
        return
    came: list[int] = []
    before = {kind: signal.signal(kind, lambda number, _: came.append(number)) for kind in INTERRUPTIONS}
    try:
        yield
    finally:
        for kind, handler in before.items():
            signal.signal(kind, handler)
        if came:
            signal.raise_signal(came[0])


def end_all() -> None:
    """Asks all programs to end, which are killed soon after, and lets none begin."""
    _ending.set()
    with _lock:
        for number in _running:
            _signal(number, signal.SIGTERM)


def _signal(group: int, kind: signal.Signals) -> None:
    try:
        os.killpg(group, kind)
    except (ProcessLookupError, PermissionError):
        pass


def run(words: Sequence[str], given: bytes, limits: Limits) -> Ended:
    """Runs a program with these bytes on its standard input."""
    with tempfile.TemporaryFile() as source, tempfile.TemporaryFile() as errors:
        source.write(given)
        source.seek(0)
        child: subprocess.Popen | None = None
        try:
            with _held(), _lock:
                if _ending.is_set():
                    raise Interrupted
                child = subprocess.Popen(
                    words,
                    stdin=source,
                    stdout=subprocess.PIPE,
                    stderr=errors,
                    start_new_session=True,
                )
                _running.add(child.pid)
                if limits.worked:
                    clock.watch(child.pid)
            output = _read(child, limits)
            if not _has_ended(child, 1.0 + limits.grace):
                raise TimeOver
        finally:
            if child:
                _end(child, limits.grace)
        errors.seek(0)
        return Ended(child.returncode, output, errors.read(65_536).decode("utf-8", "replace"))


def _has_ended(child: subprocess.Popen, seconds: float) -> bool:
    """Whether a program ends within so many seconds; its number stays taken."""
    deadline = time.monotonic() + seconds
    while not os.waitid(os.P_PID, child.pid, os.WEXITED | os.WNOHANG | os.WNOWAIT):
        if time.monotonic() > deadline:
            return False
        time.sleep(0.002)
    return True


def _end(child: subprocess.Popen, grace: float) -> None:
    """Ends a program's group: it is asked, where it has a grace, and then killed."""
    with _held():
        if child.stdout:
            child.stdout.close()
        if grace and not _has_ended(child, 0.0):
            _signal(child.pid, signal.SIGTERM)
            _has_ended(child, grace)
        _signal(child.pid, signal.SIGKILL)
        with _lock:
            child.wait()
            _running.discard(child.pid)
        clock.watch(None)


def _read(child: subprocess.Popen, limits: Limits) -> bytes:
    """Reads up to the end of the output, or to the limits."""
    assert child.stdout
    now = clock.now if limits.worked else time.monotonic
    deadline = now() + limits.seconds
    chunks: list[bytes] = []
    size = 0
    with selectors.DefaultSelector() as selector:
        selector.register(child.stdout, selectors.EVENT_READ)
        while True:
            left = deadline - now()
            if left <= 0:
                raise TimeOver
            if _ending.is_set():
                raise Interrupted
            if not selector.select(min(left, WAKING)):
                continue
            chunk = os.read(child.stdout.fileno(), 65_536)
            if not chunk:
                return b"".join(chunks)
            chunks.append(chunk)
            size += len(chunk)
            if size > limits.output:
                raise TooLong
