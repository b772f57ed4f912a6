"""Refuses each allocation of the built program in turn, and each one from the N-th on, and holds every run to status 7
without a byte, or to what the run without refusals prints. bench/refusals.sh has the usage."""
import collections
import concurrent.futures
import os
import queue
import signal
import subprocess
import sys
import threading
import time

TOP = os.path.dirname(os.path.dirname(os.path.realpath(__file__)))
# So many runs in a row that no refusal reached end a command: with several workers the order of allocations isn't fixed.
UNREACHED, SECONDS = 40, 60
# So many runs are under way at once.
AT_ONCE = 8
# Where a refusal is told of by a byte: bench/refuse.c.
TELLER = 9


def text_of(name):
    with open(f"{TOP}/{name}", "rb") as it:
        return it.read()


def commands(program):
    """A name, the words and the bytes of each run."""
    deep, level = text_of("bench/check/deep.c"), text_of("examples/level.c")
    bundle = subprocess.run([program, "bundle", "1"], input=level, capture_output=True, check=True).stdout
    edit = ["edit", "--workers", "1", str(len(level))]
    return [
        ("check, a realistic file, 4 workers", ["check"], text_of("bench/check/realistic.c")),
        ("check, three calls deep, 1 worker", ["check", "--workers", "1"], deep),
        ("workload 3", ["workload", "3"], b""),
        ("replay of two inputs", ["replay", "[2, 40]"], deep),
        ("bundle of a call", ["bundle", "1"], level),
        ("recheck of it", ["recheck"], bundle),
        ("sweep, three calls deep", ["sweep"], deep),
        ("edit of an assertion, 1 worker", edit, level + text_of("examples/level_changed.c")),
    ]


class Runs:
    """Runs of a program on the same words and bytes. Files serve as its streams, since a pipe for each costs more than a run."""

    def __init__(self, program, library, words, source):
        self.program, self.library, self.words = program, library, [program, *words]
        self.input, self.output = os.memfd_create("input"), os.memfd_create("output")
        self.told, self.teller = os.pipe()
        os.set_blocking(self.told, False)
        os.write(self.input, source)

    def ended(self, refuse):
        """The status and the output of a run, and whether one of its allocations was refused."""
        os.lseek(self.input, 0, os.SEEK_SET)
        os.lseek(self.output, 0, os.SEEK_SET)
        os.ftruncate(self.output, 0)
        environment = {"LD_PRELOAD": self.library, **({} if refuse is None else {"REFUSE": refuse})}
        streams = [(self.input, 0), (self.output, 1), (self.output, 2), (self.teller, TELLER)]
        pid = os.posix_spawn(self.program, self.words, environment, setsigdef=[signal.SIGPIPE],
                             file_actions=[(os.POSIX_SPAWN_DUP2, mine, its) for mine, its in streams])
        timer = threading.Timer(SECONDS, os.kill, (pid, signal.SIGKILL))
        timer.start()
        status = os.waitstatus_to_exitcode(os.waitpid(pid, 0)[1])
        timer.cancel()
        try:
            was_refused = bool(os.read(self.told, 65536))
        except BlockingIOError:
            was_refused = False
        return status, os.pread(self.output, os.fstat(self.output).st_size, 0), was_refused


def each_refusal(crew, behind, most):
    """The ends of the runs in which allocation 0, 1, 2 and so on is refused, or each one from it on. A few runs are under way
    at once, each by another of the crew, since on a busy machine a run mostly waits."""
    free, ahead = queue.SimpleQueue(), collections.deque()
    for runs in crew:
        free.put(runs)

    def ended(n):
        runs = free.get()
        try:
            return runs.ended(f"{n}-" if behind else str(n))
        finally:
            free.put(runs)

    with concurrent.futures.ThreadPoolExecutor(len(crew)) as pool:
        for n in range(most + len(crew)):
            if n < most:
                ahead.append(pool.submit(ended, n))
            if n >= len(crew) and ahead:
                yield ahead.popleft().result()


def sweep(crew, behind, most):
    """Counts of runs that ended with 7 and as the row, and what else came."""
    due = crew[0].ended(None)[:2]
    empty = as_due = unreached = n = 0
    wrong = []
    for status, out, was_refused in each_refusal(crew, behind, most):
        unreached = 0 if was_refused else unreached + 1
        if (status, out) == (7, b""):
            empty += 1
        elif (status, out) == due:
            as_due += 1
        else:
            wrong.append((n, status, out[:60]))
        n += 1
        if unreached >= UNREACHED:
            break
    return n, empty, as_due, wrong


def main(program, library, most, chosen):
    missed = False
    os.dup2(0, TELLER)  # so that no file of a run gets this number
    print("| run | refused | runs | status 7, nothing | as without | else | seconds |\n|---|---|---|---|---|---|---|")
    for name, words, source in commands(program):
        if chosen and not name.startswith(tuple(chosen)):
            continue
        crew = [Runs(program, library, words, source) for _ in range(AT_ONCE)]
        for behind in (False, True):
            begun = time.time()
            n, empty, as_due, wrong = sweep(crew, behind, most)
            missed = missed or bool(wrong)
            which = "from the n-th on" if behind else "the n-th"
            print(f"| {name} | {which} | {n} | {empty} | {as_due} | {len(wrong)} | {time.time() - begun:.0f} |", flush=True)
            for at, status, out in wrong[:5]:
                print(f"MISSED: {name}, {which}, {at}: status {status}, {out!r}", flush=True)
    return 1 if missed else 0


if __name__ == "__main__":
    sys.exit(main(os.path.realpath(sys.argv[1]), sys.argv[2], int(sys.argv[3]) if sys.argv[3:] else 1_000_000, sys.argv[4:]))
