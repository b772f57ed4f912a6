"""Sweeps programs of some shapes, and those below a folder.

usage: sweep.py [--limits] [--limit SECONDS] PROGRAM [FOLDER]

A shape has more paths than are counted, so each sweep ends as spent. Seconds are the least user and system time of three
runs, and instructions those of callgrind, of runs of less than SHORT seconds.

Of a program below the folder: how `sweep --edges 5000` ends, by what it says of the assertions that aren't found (`whole`,
`more`, the limit, or `all found`), its seconds and those of `check --workers 1`, and how many assertions each of the two
settles. The status is 1 where something isn't as wanted.
"""
import collections
import re
import sys

sys.dont_write_bytecode = True
from check import below, faults_of_form, faults_of_truth
from running import counted, least_of, missed, options, ran

EDGES, SHORT = (1250, 2500, 5000), 2.0


def branches(condition):
    """Twenty tests in a row, each independent of the others."""
    tests = "".join(f"    if ({condition}) s = s + {at};\n" for at in range(1, 21))
    return f"int main() {{\n    int s = 0;\n{tests}    assert(s <= 210);\n    return 0;\n}}\n"


def loop(bound):
    return f"int main() {{\n    int n = {bound};\n    int i = 0;\n    while (i < n) i = i + 1;\n    assert(i >= n);\n    return 0;\n}}\n"


def recursion(bound):
    return f"int f(int n) {{ if (n <= 0) return 0; return f(n - 1); }}\nint main() {{\n    int r = f({bound});\n    assert(r == 0);\n    return 0;\n}}\n"


SHAPES = {
    "branches": branches("input() > 0"), "loop": loop("1000000"), "loop on an input": loop("input()"),
    "recursion": recursion("1000000"), "recursion on an input": recursion("input()"),
}


def grown(values):
    """By how much values grow at each step, the greatest last."""
    return [new / old for old, new in zip(values, values[1:])] if all(values) else []


def measured(program, shape, source, edges):
    """Seconds, instructions or None, and what is wrong with a sweep of a shape."""
    words = [program, "sweep", "--edges", str(edges)]
    ended = least_of(3, words, source, 300)
    faults = []
    if ended.status != 2 or not re.fullmatch(rf"\d+:\d+: unknown \(sweep {edges} spent\)\nsummary: 0 proved, 0 found, 1 unknown\n", ended.text):
        faults.append(f"{shape}, {edges}: status {ended.status}, {ended.text[:80]!r}")
    instructions = counted(words, source)[1] if ended.seconds < SHORT else None
    return ended.seconds, instructions, faults


def of_shape(program, shape, sizes):
    source, rows, faults = SHAPES[shape].encode(), [], []
    for edges in sizes:
        seconds, instructions, more = measured(program, shape, source, edges)
        rows.append((seconds, instructions))
        faults += more
        if instructions:
            faults += missed("sweep", shape, edges, "instructions", instructions)
        told = f"{instructions / 1e6:10.1f}" if instructions else f"{'-':>10}"
        print(f"{shape:24} {edges:5} edges {seconds:8.3f} s {edges / max(seconds, 1e-6):9.0f} paths a second {told} million instructions", flush=True)
    growths = grown([it[1] for it in rows]) or grown([it[0] for it in rows])
    what = "instructions" if all(it[1] for it in rows) else "seconds"
    if growths:
        print(f"{shape:24} grows by {', '.join(f'{it:.2f}' for it in growths)} in {what}")
        faults += [fault for it in growths for fault in missed("sweep", shape, "any", "growth", round(it, 2))]
    return faults


def end_of(text):
    for pattern, told in ((r"unknown \(sweep \d+ spent\)", "more"), (r"unknown \(solver limit: (\w+)\)", None), (r": proved\n", "whole")):
        it = re.search(pattern, text)
        if it:
            return told or f"limit {it[1]}"
    return "all found" if ": found " in text else "no assertion"


def against_check(swept, checked):
    """Where a sweep and a check contradict each other."""
    return [f"assertion {number}: {one} by sweep, {other} by check" for number, (one, other) in enumerate(zip(swept, checked), 1)
            if {one.split()[0], other.split()[0]} == {"proved", "found"}]


def settled(told):
    return sum(not it.startswith("unknown") for it in told)


def of_program(program, folder, name, truth, limit):
    """How the sweep of a program ends, and what is wrong with it."""
    path = f"{folder}/{name}"
    with open(path, "rb") as it:
        source = it.read()
    swept = ran([program, "sweep", "--edges", "5000"], source, limit)
    checked = ran([program, "check", "--workers", "1"], source, limit)
    if swept.status in (None, 3):
        print(f"{name:30} {'no end in time' if swept.status is None else swept.text.strip()}", flush=True)
        return "none", 0, 0, []
    told, faults = faults_of_form(program, path, swept, limit)
    if told:
        faults += faults_of_truth(told, truth)
    others = faults_of_form(program, path, checked, limit)[0] if checked.status is not None else None
    if told and others:
        faults += against_check(told, others)
    end = end_of(swept.text)
    print(f"{name:30} {end:14} {swept.seconds:8.3f} s, check {checked.seconds:8.3f} s; settled {settled(told or [])} of {len(told or [])}, by check {settled(others or [])}", flush=True)
    return end, swept.seconds, settled(told or []), faults


def of_folder(program, folder, limit):
    ends, seconds, all_settled, wrong = collections.Counter(), 0.0, 0, 0
    for name, truth in below(folder):
        end, took, some, faults = of_program(program, folder, name, truth, limit)
        ends[end] += 1
        seconds, all_settled, wrong = seconds + took, all_settled + some, wrong + bool(faults)
        for fault in faults:
            print(f"    WRONG {name}: {fault}", flush=True)
    print(f"ends: {', '.join(f'{end} {count}' for end, count in ends.most_common())}; {all_settled} assertions settled in {seconds:.1f} s")
    return wrong


def main(words):
    given, (program, *folders) = options(words, {"limits": False, "limit": 60.0}, __doc__, 1)
    wrong = 0
    for shape in SHAPES:
        for fault in of_shape(program, shape, EDGES[2:] if given["limits"] else EDGES):
            print(f"    WRONG {fault}", flush=True)
            wrong += 1
    wrong += sum(of_folder(program, folder, given["limit"]) for folder in folders)
    print(f"{wrong} wrong")
    return 1 if wrong else 0


if __name__ == "__main__":
    sys.exit(main(sys.argv[1:]))
