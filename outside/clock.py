"""The seconds that a search has worked: its processor time, and that of the program that it runs.

So what is found within a limit doesn't hang on what else the machine does. While nothing works, as
when a program hangs, the clock goes at a 25th of its speed.
"""

import os
import resource
import time
from pathlib import Path

WAITING = 25.0

_begun = time.monotonic()
_TICKS = os.sysconf("SC_CLK_TCK")


class _Watched:
    """The program that runs, and the latest time that was told."""

    number: int | None = None
    latest = 0.0


def watch(number: int | None) -> None:
    """Counts the time of a running program; of one that has been waited for it counts anyway."""
    _Watched.number = number


def _running() -> float:
    """The processor time of the watched program, where the system tells it."""
    if _Watched.number is None:
        return 0.0
    try:
        text = Path(f"/proc/{_Watched.number}/stat").read_text()
        fields = text.rpartition(")")[2].split()
        return (int(fields[11]) + int(fields[12])) / _TICKS
    except (OSError, ValueError, IndexError):
        return 0.0


def now() -> float:
    """The seconds so far; they never go back."""
    usages = [resource.getrusage(who) for who in (resource.RUSAGE_SELF, resource.RUSAGE_CHILDREN)]
    worked = sum(usage.ru_utime + usage.ru_stime for usage in usages) + _running()
    waited = (time.monotonic() - _begun) / WAITING
    _Watched.latest = max(_Watched.latest, worked, waited)
    return _Watched.latest
