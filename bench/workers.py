"""Checks programs with several numbers of workers, and holds the answers of all runs to one another.

usage: workers.py [--limit SECONDS] [--runs N] [--workers N,N..] [--workload N] PROGRAM FOLDER

Each file below the folder whose name ends in .c is checked N (5) times with each number of workers (1,2,4), and so is the
workload of N procedures. Each report has to have its form, and each list to replay to its assertion (as in check.py); no
assertion may be proved in one run and found in another, nor be told otherwise than by truth.tsv of the folder, where that is
there. An `unknown` contradicts nothing.

For each program it prints the least seconds by the clock with each number of workers, how many times as fast as the first of
them the last one is, and how many texts there were over all runs. The status is 1 where something isn't as wanted.
"""
import os
import re
import sys

sys.dont_write_bytecode = True
from check import below, faults_of_form, faults_of_truth, run, summary_of

LINE = re.compile(r"\d+:\d+: (.*)")


def options(words):
    given = {"limit": "120", "runs": "5", "workers": "1,2,4", "workload": ""}
    while words and words[0].removeprefix("--") in given and words[0].startswith("--"):
        given[words[0].removeprefix("--")] = words[1]
        words = words[2:]
    if len(words) != 2:
        sys.exit(__doc__)
    return given, words


def faults_of_lines(ended, limit):
    """As faults_of_form, of a report whose source isn't at hand: its lists aren't replayed."""
    if ended.status is None:
        return None, [f"more than {limit} seconds"]
    lines = ended.text.split("\n")
    split = [LINE.fullmatch(line) for line in lines[:-2]]
    if lines[-1] != "" or not all(split):
        return None, [f"no report, status {ended.status}"]
    told = [it[1] for it in split]
    return told, [] if (lines[-2], ended.status) == summary_of(told) else [f"not the summary and the status {summary_of(told)}"]


def against(told, kinds):
    """Where a run contradicts those before it. `kinds` has what was told of each assertion."""
    faults = []
    for number, verdict in enumerate(told):
        seen = kinds.setdefault(number, set())
        seen.add(verdict.split()[0])
        if {"proved", "found"} <= seen:
            faults.append(f"assertion {number + 1} is proved in one run and found in another")
    return faults


def tried(program, words, path, truth, given):
    """The least seconds with each number of workers, the texts, and what was wrong in any run."""
    limit, kinds, texts, faults, least = float(given["limit"]), {}, {}, [], []
    for workers in given["workers"].split(","):
        seconds = []
        for _ in range(int(given["runs"])):
            ended = run([program, *words, "--workers", workers], path, limit)
            seconds.append(ended.seconds)
            if ended.text in texts and ended.status is not None:
                continue
            told, wrong = faults_of_form(program, path, ended, limit) if path != os.devnull else faults_of_lines(ended, limit)
            texts[ended.text] = told
            if told:
                wrong = wrong + against(told, kinds) + faults_of_truth(told, truth)
            faults += [f"{workers} workers: {it}" for it in wrong]
        least.append(min(seconds))
    return least, texts, faults


def shown(name, least, texts, faults):
    times = " ".join(f"{it:9.3f}" for it in least)
    print(f"{name:30} {times}  {least[0] / least[-1]:6.2f} times {len(texts):4} texts")
    for fault in faults:
        print(f"    WRONG {fault}")
    sys.stdout.flush()
    return bool(faults)


def main(words):
    given, (program, folder) = options(words)
    print(f"{'seconds with so many workers':30} " + " ".join(f"{it:>9}" for it in given["workers"].split(",")))
    wrong, sums = 0, []
    rows = [(name, ["check"], f"{folder}/{name}", truth) for name, truth in below(folder)]
    if given["workload"]:
        rows.append((f"workload {given['workload']}", ["workload", given["workload"]], os.devnull, {}))
    for name, command, path, truth in rows:
        least, texts, faults = tried(program, command, path, truth, given)
        sums.append(least)
        wrong += shown(name, least, texts, faults)
    totals = [sum(it) for it in zip(*sums)]
    print(f"{'all':30} " + " ".join(f"{it:9.3f}" for it in totals))
    print(f"{len(rows)} programs, {wrong} wrong")
    return 1 if wrong else 0


if __name__ == "__main__":
    sys.exit(main(sys.argv[1:]))
