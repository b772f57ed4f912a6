"""Runs a command and says what it takes, or fails where it doesn't do what it is to do.

usage: measure.py [--runs N] [--status S] [--text PATTERN] [--input FILE] [--count] [--own NAME] -- COMMAND..

Each run must end with the status (0) and write a text of which the whole matches the pattern; else nothing is measured
and the status is 1. It prints the least user and system time of N runs in seconds (five, if not given) and the most
memory in KB. With --count it also prints the instructions of one run under valgrind, or - where there is none, and with
--own NAME those among them that are of the object file NAME.
"""
import os
import re
import resource
import shutil
import subprocess
import sys
import tempfile


def options(words):
    given, command = {"runs": 5, "status": 0, "text": ".*", "input": os.devnull, "count": False, "own": None}, None
    while words:
        word = words.pop(0)
        if word == "--":
            command = words
            break
        name = word.removeprefix("--")
        if name not in given:
            sys.exit(f"measure.py: {word}?")
        given[name] = True if name == "count" else int(words.pop(0)) if name in ("runs", "status") else words.pop(0)
    return given, command


def run(command, given):
    """One run: its standard output, user and system time, and memory."""
    before = resource.getrusage(resource.RUSAGE_CHILDREN)
    with open(given["input"], "rb") as source:
        ended = subprocess.run(command, stdin=source, stdout=subprocess.PIPE, stderr=subprocess.PIPE)
    after = resource.getrusage(resource.RUSAGE_CHILDREN)
    text = ended.stdout.decode(errors="replace").strip()
    if ended.returncode != given["status"] or not re.fullmatch(given["text"], text, re.S):
        said = text if len(text) < 200 else f"{text[:200]}.."
        sys.exit(f"{' '.join(command)}: status {ended.returncode} and '{said}', where status {given['status']} and '{given['text']}' are wanted")
    return text, after.ru_utime + after.ru_stime - before.ru_utime - before.ru_stime, after.ru_maxrss


def counted(command, given):
    """The instructions of one run, and those of an object file of that name."""
    if not shutil.which("valgrind"):
        return "-", "-"
    with tempfile.TemporaryDirectory() as room:
        file = f"{room}/counts"
        run(["valgrind", "--tool=callgrind", f"--callgrind-out-file={file}", *command], given)
        with open(file, encoding="utf-8", errors="replace") as it:
            text = it.read()
        own = "-"
        if given["own"]:
            said = subprocess.run(["callgrind_annotate", "--threshold=100", file], capture_output=True, text=True).stdout
            own = sum(int(it[1].replace(",", "")) for it in re.finditer(rf"(?m)^\s*([\d,]+).*/{re.escape(given['own'])}\]", said))
        return re.search(r"(?m)^(?:summary|totals): (\d+)", text)[1], own


def main(words):
    given, command = options(words)
    runs = [run(command, given) for _ in range(given["runs"])]
    line = [f"{min(it[1] for it in runs):.4f}", str(max(it[2] for it in runs))]
    if given["count"]:
        all_of_it, own = counted(command, given)
        line += [str(all_of_it), str(own)] if given["own"] else [str(all_of_it)]
    print(*line)
    return 0


if __name__ == "__main__":
    sys.exit(main(sys.argv[1:]))
