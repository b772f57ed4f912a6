"""Measures what bench/README.md shows: runs the command of each section, and puts what it prints into the section, and the
commit and the load into the table at the head of the page.

usage: page.py [--only BEGINNING]... [PROGRAM [FOLDER]]

PROGRAM is the built program, of the last commit, from which no crate may differ; FOLDER has the labelled programs. With
--only the sections whose names begin so are measured, else all but those that prove something, which take long. The page
is written after each section. The status is 1 where a command ended with another status than 0.
"""
import os
import re
import signal
import subprocess
import sys
import textwrap
from typing import Callable

TOP = os.path.dirname(os.path.dirname(os.path.realpath(__file__)))
PAGE = f"{TOP}/bench/README.md"
ROW = re.compile(r"(?m)^\| ([A-Z][^|]*) \| `(bench/[^|`]*)` \| ([^|]*) \| ?([^|]*)\|$")
PROVING = ("The first build", "The gate", "Graphs", "The solver", "The lock")
NONE = "No figures of this version."
# What the programs are made of.
SOURCES = ("HANDLES", "crates.txt", *(f":(glob)crates/*/{part}/**" for part in ("src", "specs", "proofs")))
DEAREST = 8


def matching(pattern: str) -> Callable[[list[str]], list[str]]:
    return lambda lines: [it for it in lines if re.search(pattern, it)]


def seconds_in(line: str) -> float:
    """The last number of seconds in a line, or the number before the times."""
    found = re.findall(r"(\d+\.\d+) s\b", line) or re.findall(r"(\d+\.\d+) ", line)[:1]
    return float(found[-1]) if found else 0.0


def dearest(pattern: str) -> Callable[[list[str]], list[str]]:
    """Of the lines that match the pattern, each of a program, those of the dearest, where the first one stood; and all others."""

    def kept(lines: list[str]) -> list[str]:
        programs = matching(pattern)(lines)
        most = sorted(programs, key=seconds_in, reverse=True)[:DEAREST]
        at = lines.index(programs[0]) if programs else 0
        rest = [it for it in lines[at:] if it not in programs]
        return [*lines[:at], f"the dearest of {len(programs)} programs:", *most, *rest]

    return kept


def from_line(pattern: str) -> Callable[[list[str]], list[str]]:
    return lambda lines: lines[next((at for at, it in enumerate(lines) if re.search(pattern, it)), 0):]


# What of a command's output the page shows, where that isn't all.
SHOWN: dict[str, Callable[[list[str]], list[str]]] = {
    "Wrong bodies": lambda lines: textwrap.wrap(", ".join(lines), 100),
    "Checks": matching(r"^\S|WRONG|MISSED"),
    "What a step costs": dearest(r" settled "),
    "Workers": dearest(r"\.c .* times "),
    "Schedules": lambda lines: [it for it in lines if "WRONG" in it] + lines[-2:],
    "Bundles": from_line(r"^budget \d"),
    "Sweeps": matching(r" edges | grows by |^ends: |^\d+ wrong|WRONG|MISSED"),
    "Edits": matching(r"^[a-z ]+: \d+ edits|^\d+ edits|WRONG"),
    "Streams": lambda lines: [it for it in lines if "MISSED" in it] + lines[-1:],
}


def with_output(page: str, section: str, output: str) -> str:
    """The page with an output in place of what the section had."""
    begin = page.index(f"\n## {section}\n")
    end = page.find("\n## ", begin + 1)
    body = page[begin: end if end >= 0 else len(page)]
    body = re.sub(r"\n```\n.*?\n```\n", "\n", body, flags=re.S).replace(NONE, "").rstrip("\n")
    return page[:begin] + f"{body}\n\n```\n{output}\n```\n" + (page[end:] if end >= 0 else "")


def with_row(page: str, section: str, commit: str, load: str) -> str:
    return ROW.sub(lambda it: f"| {it[1]} | `{it[2]}` | `{commit}` | {load} |" if it[1] == section else it[0], page)


def ran(command: list[str]) -> tuple[int, str]:
    """The status and the output of a command, of which nothing is left behind where this is stopped."""
    with subprocess.Popen(command, cwd=TOP, stdout=subprocess.PIPE, stderr=subprocess.STDOUT, text=True, start_new_session=True) as child:
        try:
            output, _ = child.communicate()
        except BaseException:
            os.killpg(child.pid, signal.SIGTERM)
            raise
        return child.returncode, output


def measured(section: str, command: str, program: str, folder: str, commit: str) -> bool:
    """Measures a section and writes it to the page; whether its command ended with 0."""
    words = [{"PROGRAM": program, "tests/programs": folder}.get(it, it) for it in command.split()]
    if len(words) == 1 and section not in PROVING and section != "Wrong bodies":
        words.append(program)
    before = os.getloadavg()[0]
    status, output = ran([f"{TOP}/{words[0]}", *words[1:]])
    load = f"{max(before, os.getloadavg()[0]):.0f}"
    lines = output.rstrip("\n").split("\n")
    with open(PAGE, encoding="utf-8") as it:
        page = it.read()
    page = with_output(page, section, "\n".join(SHOWN.get(section, list)(lines)).rstrip())
    with open(f"{PAGE}.new", "w", encoding="utf-8") as it:
        it.write(with_row(page, section, commit, load))
    os.replace(f"{PAGE}.new", PAGE)
    print(f"{section}: status {status}, load {load}", flush=True)
    return status == 0


def git(*words: str) -> str:
    return subprocess.run(["git", *words], cwd=TOP, capture_output=True, text=True, check=True).stdout.strip()


def main(words: list[str]) -> int:
    only = []
    while words[:1] == ["--only"] and len(words) > 1:
        only.append(words[1])
        words = words[2:]
    if len(words) > 2 or words[:1] == ["--only"]:
        sys.exit(__doc__)
    defaults = [f"{TOP}/crates/smash_main/out/smash_main", f"{TOP}/tests/programs"]
    program, folder = map(os.path.realpath, words + defaults[len(words):])
    if not os.access(program, os.X_OK):
        sys.exit(f"{program} isn't there: ./smash build makes it")
    if git("status", "--porcelain", "--", *SOURCES):
        sys.exit("the crates differ from the last commit, so no figure would be of it")
    commit = git("log", "-1", "--format=%h", "--", *SOURCES)
    with open(PAGE, encoding="utf-8") as it:
        rows = [(it[1], it[2]) for it in ROW.finditer(it.read())]
    wanted = [(section, command) for section, command in rows
              if (any(section.startswith(it) for it in only) if only else section not in PROVING)]
    right = [measured(section, command, program, folder, commit) for section, command in wanted]
    return 0 if all(right) and right else 1


if __name__ == "__main__":
    signal.signal(signal.SIGTERM, lambda *_: sys.exit(143))
    sys.exit(main(sys.argv[1:]))
