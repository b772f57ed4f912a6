"""Many files at once: each is worked at by a thread, whose stages are processes of their own."""
import sys
import threading
import time
from collections.abc import Callable, Iterator, Sequence
from concurrent.futures import Future, ThreadPoolExecutor
from concurrent.futures import wait as wait_for
from typing import IO

from files.processes import Stopped
from files.results import Checked
from files.text_format import shown

Work = Callable[[str, str, Callable[[str], None]], Checked]
PAUSE = 0.2


class Progress:
    """A line on a terminal: how many files are done, the seconds, and what runs. Elsewhere nothing is written."""

    def __init__(self, stream: IO[str], total: int) -> None:
        self.stream, self.total = stream, total
        self.is_told = stream.isatty()
        self.begun = time.monotonic()
        self.done = 0
        self.running: dict[int, str] = {}
        self.lock = threading.Lock()

    def tell(self, number: int, what: str | None) -> None:
        """What is done at a file; None: it is done."""
        with self.lock:
            if what is None:
                self.running.pop(number, None)
                self.done += 1
            else:
                self.running[number] = what

    def show(self) -> None:
        """Writes the line anew."""
        if not self.is_told:
            return
        with self.lock:
            now = ", ".join(self.running[it] for it in sorted(self.running)[:2])
        seconds = time.monotonic() - self.begun
        line = f"{self.done} of {self.total} files, {seconds:.0f} s" + (f": {now}" if now else "")
        self.stream.write(f"\r{line[:100]}\033[K")
        self.stream.flush()

    def clear(self) -> None:
        """Takes the line away, so that something else can be written."""
        if self.is_told:
            self.stream.write("\r\033[K")
            self.stream.flush()


def checked_files(names: Sequence[tuple[str, str]], workers: int, work: Work, progress: Progress,
                  stop: Callable[[], None]) -> Iterator[Checked]:
    """What is known of each file, in the order of the words, as soon as it and all before it are done.

    Where that ends early, `stop` ends what runs, so that the threads can end.
    """
    with ThreadPoolExecutor(workers) as pool:
        futures: list[Future[Checked]] = []
        try:
            for number, (name, fault) in enumerate(names):
                futures.append(pool.submit(one, number, name, fault, work, progress))
            for future in futures:
                while wait_for([future], PAUSE).not_done:
                    progress.show()
                progress.clear()
                yield future.result()
        except BaseException:
            for future in futures:
                future.cancel()
            stop()
            raise
        finally:
            progress.clear()


def one(number: int, name: str, fault: str, work: Work, progress: Progress) -> Checked:
    """Works at one file, and tells how far it is."""
    try:
        return work(name, fault, lambda stage: progress.tell(number, f"{shown(name)} {stage}"))
    except Stopped:
        return Checked(name, fault="stopped")
    finally:
        progress.tell(number, None)


def progress_of(total: int) -> Progress:
    """The progress on standard error."""
    return Progress(sys.stderr, total)
