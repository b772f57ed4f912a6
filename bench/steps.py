"""Runs each program below a folder with one worker and a budget, and says what is settled, the seconds of the processor and
the memory. Then, where valgrind is there, the instructions of the programs named in limits.tsv, and of a hundred steps.

usage: steps.py PROGRAM FOLDER LIMITS COUNT_C

Rows of LIMITS whose script is `steps` hold them: `any` with the size of the budget for seconds and KB, a program's name with
the default budget for its instructions, and `hundred` for those of COUNT_C from its 1,900th to its 2,000th step. A verdict
that isn't that of the folder's truth.tsv is wrong. The status is 1 where one is, or where a limit is missed.
"""
import os
import re
import shutil
import subprocess
import sys
import tempfile

import check

BUDGET = 20000
LIMIT = 600.0


def limits_of(path):
    """The most that a shape may take, by what is held."""
    return {(shape, what): float(most) for script, shape, _, what, _, most in check.rows(path) if script == "steps"}


def seconds_of(command, path):
    """The text and the status of a run, and the seconds of the processor and the KB that it took."""
    with open(path, "rb") as source, tempfile.TemporaryFile() as sink:
        child = subprocess.Popen(["timeout", "-s", "KILL", str(LIMIT), *command], stdin=source, stdout=sink, stderr=subprocess.DEVNULL)
        _, status, used = os.wait4(child.pid, 0)
        child.returncode = os.waitstatus_to_exitcode(status)
        sink.seek(0)
        return sink.read().decode(errors="replace"), child.returncode, used.ru_utime + used.ru_stime, used.ru_maxrss


def instructions_of(command, path):
    with tempfile.TemporaryDirectory() as room, open(path, "rb") as source:
        file = f"{room}/counts"
        words = ["valgrind", "--tool=callgrind", f"--callgrind-out-file={file}", *command]
        subprocess.run(words, stdin=source, stdout=subprocess.DEVNULL, stderr=subprocess.DEVNULL, check=False)
        with open(file, encoding="utf-8", errors="replace") as it:
            return int(re.search(r"(?m)^(?:summary|totals): (\d+)", it.read())[1])


def missed(limits, shape, what, value):
    most = limits.get((shape, what))
    if most is None or value <= most:
        return 0
    print(f"    MISSED {what}: {value:.0f}, at most {most:.0f}")
    return 1


def held_to_budget(program, folder, limits):
    """How many programs there are, and what isn't as wanted."""
    faults = 0
    for name, truth in check.below(folder):
        command = [program, "check", "--workers", "1", "--budget", str(BUDGET)]
        text, status, seconds, kilobytes = seconds_of(command, f"{folder}/{name}")
        verdicts = re.findall(r"(?m)^\d+:\d+: (.*)$", text)
        settled = sum(not verdict.startswith("unknown") for verdict in verdicts)
        print(f"{name:34} {settled:3} of {len(verdicts):3} settled {seconds:9.2f} s {kilobytes:9} KB")
        if status not in (0, 1, 2, 3):
            print(f"    WRONG status {status}")
            faults += 1
        wrong = check.faults_of_truth(verdicts, truth) if verdicts else []
        for fault in wrong:
            print(f"    WRONG {fault}")
        faults += len(wrong) + missed(limits, "any", "seconds", seconds) + missed(limits, "any", "KB", kilobytes)
        sys.stdout.flush()
    return faults


def held_to_instructions(program, folder, limits, count):
    faults = 0
    paths = {os.path.basename(name)[:-2]: f"{folder}/{name}" for name, _ in check.below(folder)}
    for shape, what in limits:
        if what == "instructions" and shape in paths:
            taken = instructions_of([program, "check", "--workers", "1"], paths[shape])
            print(f"{shape:34} {taken:16} instructions")
            faults += missed(limits, shape, what, taken)
    most, fewer = (instructions_of([program, "check", "--workers", "1", "--budget", budget], count) for budget in ("2000", "1900"))
    print(f"{'a step of count.c':34} {(most - fewer) // 100:16} instructions")
    return faults + missed(limits, "hundred", "instructions", most - fewer)


def main(words):
    if len(words) != 4:
        sys.exit(__doc__)
    program, folder, limits, count = words[0], words[1], limits_of(words[2]), words[3]
    faults = held_to_budget(program, folder, limits)
    if shutil.which("valgrind"):
        faults += held_to_instructions(program, folder, limits, count)
    print(f"{faults} not as wanted")
    return 1 if faults else 0


if __name__ == "__main__":
    sys.exit(main(sys.argv[1:]))
