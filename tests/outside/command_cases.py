"""The commands: another z3 in place of z3, words, statuses, and nothing that is left behind."""

import os
import signal
import subprocess
import sys
import tempfile
import time
from collections.abc import Iterator
from pathlib import Path

from settings import TOP, Case, Setting

DEFINITION = "(define-fun n0_10 ((x!0 Int)) Bool (<= x!0 1))"

# What stands in place of z3, with what standard error must name.
FAKES = {
    "nonsense": "echo '(((let us see'; echo 'sat)'; exit 0",
    "nonsense after sat": "echo sat; echo ')) (define-fun n0_10 (x) ((('",
    "no text": "head -c 100000 /dev/urandom",
    "ends early": "exit 1",
    "dies": "kill -9 $$",
    "hangs": "trap '' TERM; sleep 1000 & sleep 1000",
    "prints for ever": "yes '(sat)'",
    "10 MB": f"echo sat; echo '('; yes '{DEFINITION}' | head -c 10000000; echo ')'",
    "4 MB": f"echo sat; echo '('; yes '{DEFINITION}' | head -c 3900000; echo ')'",
    "deep": "echo sat; head -c 50000 /dev/zero | tr '\\0' '('",
    "all true": "echo sat; echo '((define-fun n0_10 ((a Int) (b Int) (c Int)) Bool true))'",
    "unknown": "echo unknown; echo '(error \"no model\")'",
}
# What smash-prove prints of files, with its status.
PROVED: dict[str, tuple] = {
    "examples/jobs.c": (
        0,
        "examples/jobs.c:15:5: proved (by z3, accepted)",
        "summary: 0 proved, 1 by z3, 0 found, 0 unknown",
    ),
    "examples/wrong.c": (
        1,
        "examples/wrong.c:5:3: proved",
        "examples/wrong.c:7:3: found []",
        "summary: 1 proved, 0 by z3, 1 found, 0 unknown",
    ),
    "README.md": (
        3,
        "README.md:1:1: refused bad byte",
        "summary: 0 proved, 0 by z3, 0 found, 0 unknown, 1 refused",
    ),
}
VERSION = 'case "$1" in --version) echo "Z3 version 9.9.9 - 64 bit"; exit 0;; esac'


def fake(folder: str, script: str) -> Path:
    """A folder with a program `z3` that is a script."""
    path = Path(folder) / "z3"
    path.write_text(f"#!/bin/sh\n{VERSION}\n# {folder}\n{script}\n")
    path.chmod(0o755)
    return Path(folder)


def processes(folder: str, files: tuple[str, ...]) -> list[str]:
    """The processes of which one of these files names a folder."""
    found = []
    for entry in Path("/proc").iterdir():
        if not entry.name.isdigit() or int(entry.name) == os.getpid():
            continue
        try:
            texts = [(entry / file).read_bytes() for file in files]
            words = (entry / "cmdline").read_bytes()
        except OSError:
            continue
        if any(folder.encode() in text for text in texts):
            found.append(words.replace(b"\0", b" ").decode("utf-8", "replace"))
    return found


def left_behind(folder: str) -> list[str]:
    """The processes whose words or environment name a folder."""
    return processes(folder, ("cmdline", "environ"))


def other_z3(setting: Setting, name: str, script: str) -> list[str]:
    """Another z3 gets no bundle and leaves nothing; the package is named."""
    with tempfile.TemporaryDirectory() as folder:
        done = setting.bridge(TOP / "examples/jobs.c", 1, 0.5, fake(folder, script))
        errors = done.stderr.decode("utf-8", "replace")
        faults = [f"left behind: {words}" for words in left_behind(folder)]
    if done.returncode != 2 or done.stdout:
        faults.append(f"status {done.returncode}, {len(done.stdout)} bytes; {errors}")
    if "Debian's package z3" not in errors or "Traceback" in errors:
        faults.append(f"standard error: {errors}")
    return faults


def says_unsat(setting: Setting) -> list[str]:
    """A z3 that always says `unsat` makes the status 1, and no bundle."""
    with tempfile.TemporaryDirectory() as folder:
        done = setting.bridge(TOP / "examples/jobs.c", 1, 2.0, fake(folder, "echo unsat"))
    return [] if (done.returncode, done.stdout) == (1, b"") else [f"status {done.returncode}"]


def no_z3(setting: Setting) -> list[str]:
    """Without z3 the package is named."""
    with tempfile.TemporaryDirectory() as folder:
        words = [sys.executable, "-m", "outside", "1", "--graphs", setting.graphs or ""]
        done = subprocess.run(
            [*words, str(TOP / "examples/jobs.c")],
            capture_output=True,
            env={"PATH": folder, "PYTHONPATH": str(TOP)},
        )
    wanted = b"Debian's package z3 (apt-get install z3)"
    return [] if done.returncode == 2 and wanted in done.stderr else [f"{done.returncode} {done.stderr!r}"]


def bridge_words(setting: Setting, words: list[str], status: int, text: str) -> list[str]:
    """The bridge's status and message for words."""
    done = subprocess.run(
        [sys.executable, "-m", "outside", *words], capture_output=True, text=True, cwd=TOP
    )
    if done.returncode != status or text not in done.stderr or done.stdout or "Traceback" in done.stderr:
        return [f"{words}: status {done.returncode}, {done.stdout!r}, {done.stderr!r}"]
    return []


def prove_words(setting: Setting) -> list[str]:
    """The command's words for this setting."""
    return [str(TOP / "smash-prove"), "--program", setting.program, "--graphs", setting.graphs or ""]


def prove(setting: Setting, words: list[str], status: int, owed: str) -> list[str]:
    """What smash-prove prints, and its status."""
    done = subprocess.run([*prove_words(setting), *words], capture_output=True, text=True, cwd=TOP)
    if (done.returncode, done.stdout) != (status, owed):
        return [f"{words}: status {done.returncode}\n{done.stdout}{done.stderr}"]
    return []


def other_place(setting: Setting) -> list[str]:
    """What `recheck` says of another place counts nothing, and neither does its status alone."""
    faults = []
    for answer, status in (("accepted 17:6", 0), ("accepted 15:5", 2), ("", 0), ("accepted 15:5 ", 0)):
        with tempfile.TemporaryDirectory() as folder:
            program = Path(folder) / "program"
            recheck = f'if [ "$1" = recheck ]; then cat > /dev/null; echo "{answer}"; exit {status}; fi'
            program.write_text(f'#!/bin/sh\n{recheck}\nexec {setting.program} "$@"\n')
            program.chmod(0o755)
            words = [*prove_words(setting), "--program", str(program), "examples/jobs.c"]
            done = subprocess.run(words, capture_output=True, text=True, cwd=TOP)
        if done.returncode != 2 or "accepted)" in done.stdout:
            faults.append(f"{answer!r}: {done.stdout}")
    return faults


def no_report(setting: Setting) -> list[str]:
    """A check that prints no whole report settles nothing."""
    faults = []
    summary = "summary: 1 proved, 0 found, 0 unknown"
    for text, status in (
        ("", 0),
        ("", 1),
        ("15:5: proved", 0),
        (summary, 0),
        (f"15:5: proved\n{summary}", 1),
        (f"15:5: proven\n{summary}", 0),
        (f"15:5: proved\n17:6: proved\n{summary}", 0),
        ("", 3),
        ("", 7),
    ):
        with tempfile.TemporaryDirectory() as folder:
            program = Path(folder) / "program"
            program.write_text(f"#!/bin/sh\nprintf '%s\\n' '{text}'; exit {status}\n")
            program.chmod(0o755)
            words = [*prove_words(setting), "--program", str(program), "examples/jobs.c"]
            done = subprocess.run(words, capture_output=True, text=True, cwd=TOP)
        if done.returncode != 3 or ": proved" in done.stdout:
            faults.append(f"{text!r} with {status}: status {done.returncode}, {done.stdout}")
    return faults


def stopped(setting: Setting, kind: signal.Signals) -> list[str]:
    """A stopped command leaves no process."""
    with tempfile.TemporaryDirectory() as folder:
        there = fake(folder, f"sleep 1000 & exec sh -c 'sleep 1000 # {folder}'")
        env = {**os.environ, "PATH": f"{there}:{os.environ['PATH']}"}
        words = [*prove_words(setting), "--seconds", "60", "examples/jobs.c"]
        child = subprocess.Popen(words, cwd=TOP, env=env, stdout=subprocess.PIPE, stderr=subprocess.DEVNULL)
        deadline = time.monotonic() + 60
        while not (begun := processes(folder, ("cmdline",))) and time.monotonic() < deadline:
            time.sleep(0.05)
        child.send_signal(kind)
        child.communicate(timeout=60)
        time.sleep(0.2)
        faults = [f"left behind: {words}" for words in left_behind(folder)]
    return faults if begun else ["z3 never began"]


def stubborn(setting: Setting) -> list[str]:
    """A stopped command also ends a check that doesn't listen."""
    with tempfile.TemporaryDirectory() as folder:
        program = Path(folder) / "program"
        program.write_text("#!/bin/sh\ntrap '' TERM INT HUP\nwhile :; do sleep 1; done\n")
        program.chmod(0o755)
        words = [*prove_words(setting), "--program", str(program), "examples/jobs.c"]
        child = subprocess.Popen(words, cwd=TOP, stdout=subprocess.PIPE, stderr=subprocess.DEVNULL)
        running = f"/bin/sh\0{program}"
        while not processes(running, ("cmdline",)) and child.poll() is None:
            time.sleep(0.05)
        child.terminate()
        child.communicate(timeout=60)
        return [f"left behind: {words}" for words in processes(running, ("cmdline",))]


def cases(setting: Setting) -> Iterator[Case]:
    """All cases."""
    for name, script in FAKES.items():
        yield Case(f"z3 {name}", other_z3, (name, script), needs_z3=False)
    yield Case("z3 unsat", says_unsat, needs_z3=False)
    yield Case("z3 missing", no_z3, needs_z3=False)
    program = ["--graphs", setting.graphs or ""]
    jobs = str(TOP / "examples/jobs.c")
    for words, status, text in (
        ([], 4, "usage"),
        (["x", jobs], 4, "usage"),
        (["1", "--seconds", "0", jobs], 4, "usage"),
        (["2", *program, jobs], 3, "refused: no such assertion"),
        (["0", *program, jobs], 3, "refused: no such assertion"),
        (["1", *program, "/nonexistent.c"], 3, "can't be read"),
        (["1", *program, str(TOP / "README.md")], 3, "refused 1:1: bad byte"),
        (["1", "--graphs", "/nonexistent", jobs], 2, "doesn't run"),
        (["1", "--graphs", "/bin/cat", jobs], 2, "prints no graphs"),
    ):
        yield Case(f"words {words}", bridge_words, (words, status, text), needs_z3=False)
    for name, (status, *lines) in PROVED.items():
        yield Case(f"prove {name}", prove, ([name], status, "".join(f"{line}\n" for line in lines)))
    yield Case("prove words", prove, (["--jobs", "0", "x"], 4, ""), needs_z3=False)
    yield Case("prove another place", other_place)
    yield Case("prove stopped, stubborn", stubborn, needs_z3=False)
    yield Case("prove no report", no_report, needs_z3=False)
    for kind in (signal.SIGINT, signal.SIGTERM, signal.SIGHUP):
        yield Case(f"prove stopped {kind.name}", stopped, (kind,), needs_z3=False)
