"""What bundles.py, mutate.py, sweep.py and edit.py share: runs of a program on bytes, the places of assertions, and limits.

Seconds are user and system time, which other work on the machine changes less than the clock.
"""
import collections
import os
import re
import shutil
import subprocess
import sys
import tempfile
import threading

sys.dont_write_bytecode = True
from check import QUESTION, calls_of

TOP = os.path.dirname(os.path.dirname(os.path.realpath(__file__)))
Ran = collections.namedtuple("Ran", "text status seconds memory")


def ran(command, source, limit=120.0):
    """One run on bytes. The status is None where it took more seconds by the clock than the limit, below 0 at a signal."""
    with tempfile.TemporaryFile() as given, tempfile.TemporaryFile() as sink:
        given.write(source)
        given.seek(0)
        child = subprocess.Popen(command, stdin=given, stdout=sink, stderr=subprocess.STDOUT)
        late = threading.Event()
        timer = threading.Timer(limit, lambda: (late.set(), os.kill(child.pid, 9)))
        timer.start()
        _, status, used = os.wait4(child.pid, 0)
        timer.cancel()
        child.returncode = os.waitstatus_to_exitcode(status)
        sink.seek(0)
        text = sink.read().decode("latin-1")
    return Ran(text, None if late.is_set() else child.returncode, used.ru_utime + used.ru_stime, used.ru_maxrss)


def least_of(runs, command, source, limit):
    """The run that took the least seconds."""
    return min((ran(command, source, limit) for _ in range(runs)), key=lambda it: it.seconds)


def peak(command, source):
    """The most KB of a run; where there is no /usr/bin/time at least those of this process."""
    clock = "/usr/bin/time"
    if not os.path.exists(clock):
        return ran(command, source).memory
    with tempfile.NamedTemporaryFile("r") as note:
        ran([clock, "-q", "-f", "%M", "-o", note.name, *command], source)
        return int(note.read())


def counted(command, source):
    """The questions to the solver and the instructions of a run, or None where there is no valgrind."""
    if not shutil.which("valgrind"):
        return None, None
    with tempfile.TemporaryDirectory() as room:
        file = f"{room}/counts"
        ran(["valgrind", "-q", "--tool=callgrind", f"--callgrind-out-file={file}", *command], source, 600)
        with open(file, encoding="utf-8", errors="replace") as it:
            counts = it.read()
    said = re.search(r"(?m)^(?:summary|totals): (\d+)", counts)
    return calls_of(QUESTION, counts), int(said[1]) if said else None


GAPS = re.compile(r"/\*.*?\*/|//[^\n]*|^[ \t]*#[ \t]*include[^\n]*", re.S | re.M)


def without_gaps(source):
    """A source as text of the same length, with blanks for its comments and include lines."""
    return GAPS.sub(lambda gap: re.sub(r"[^\n]", " ", gap[0]), source)


def places_of(source):
    """The line and the column of each assertion of the source's bytes, in order."""
    text = without_gaps(source.decode("latin-1"))
    starts = [it.start() for it in re.finditer(r"\bassert\s*\(", text, re.A)]
    inside = [at for at in starts if text.count("{", 0, at) > text.count("}", 0, at)]
    return [(text.count("\n", 0, at) + 1, at - text.rfind("\n", 0, at)) for at in inside]


def programs(folder):
    """The names and the bytes of the programs below a folder."""
    names = [os.path.relpath(f"{at}/{name}", folder) for at, _, names in os.walk(folder) for name in names if name.endswith(".c")]
    for name in sorted(names):
        with open(f"{folder}/{name}", "rb") as it:
            yield name, it.read()


def options(words, given, doc, least=2):
    """The options that stand first among the words, over those given, and the other words, of which there are enough."""
    while words and words[0].startswith("--"):
        name = words[0].removeprefix("--")
        if name not in given:
            sys.exit(doc)
        if given[name] is False:
            given[name], words = True, words[1:]
        else:
            given[name], words = type(given[name])(words[1]), words[2:]
    if len(words) < least:
        sys.exit(doc)
    return given, words


def missed(script, shape, size, what, value):
    """A line where a number misses its row of bench/limits.tsv, and else nothing. A row's shape and size may be `any`."""
    with open(f"{TOP}/bench/limits.tsv", encoding="utf-8") as it:
        rows = [line.rstrip("\n").split("\t") for line in it.readlines()[1:]]
    for name, a_shape, a_size, a_what, side, limit in rows:
        if (name, a_what) == (script, what) and a_shape in (str(shape), "any") and a_size in (str(size), "any"):
            if value < float(limit) if side == "least" else value > float(limit):
                return [f"MISSED: {script} {shape} {size}: {what} is {value}, and {'at least' if side == 'least' else 'at most'} {limit} is the limit"]
    return []
