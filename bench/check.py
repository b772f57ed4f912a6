"""Checks the programs of a folder, says what that takes, and holds the answers to what is wanted.

usage: check.py [--limit SECONDS] PROGRAM FOLDER [TABLE]

A table has rows of a file, the words behind the program's name, the status, and the verdicts parted by `; `, in which
`found` stands for any list; its files are checked, and those alone. Without a table each file below the folder whose name
ends in .c is checked, and the verdicts are compared with truth.tsv of the folder where that is there. Either way each line
has to be that of its assertion, the summary and the status those of the verdicts, and each list is replayed.

For each program it prints the seconds, the memory in KB, and of a run that takes less than a second the most steps that an
assertion took (the least budget that gives the same text), the questions to the solver and the instructions (both under
valgrind), or -, then where these instructions go, by the wings' layers, and then the text. What the C library takes, which
is mostly the allocator, is told apart, whoever calls it. Steps, questions and instructions are those of one worker, whose
order of work is the same each time; seconds and memory are those of the words as they stand. The status is 1 where something isn't as wanted.
"""
import collections
import os
import re
import shutil
import subprocess
import sys
import tempfile
import time

VERDICT = re.compile(r"proved|found \[[-\d, ]*\]|unknown \(.*\)")
Ended = collections.namedtuple("Ended", "text status seconds memory")


def run(command, path, limit):
    """One run on a file. The status is None where it took more seconds than the limit."""
    with open(path, "rb") as source, tempfile.TemporaryFile() as sink:
        begin = time.monotonic()
        child = subprocess.Popen(["timeout", "-s", "KILL", str(limit), *command], stdin=source, stdout=sink, stderr=subprocess.DEVNULL)
        _, status, used = os.wait4(child.pid, 0)
        child.returncode = os.waitstatus_to_exitcode(status)
        seconds = time.monotonic() - begin
        sink.seek(0)
        text = sink.read().decode(errors="replace")
    is_killed = child.returncode < 0 or child.returncode == 137
    return Ended(text, None if is_killed else child.returncode, seconds, used.ru_maxrss)


# The function that is called once for each question to the solver.
QUESTION = "lia_solver::search::Search::question"


# The layers, each with the crates whose own instructions are its.
LAYERS = {
    "solver": ("lia_solver", "shadow_elim", "infeasible_cert", "linear_formula"),
    "frontier": ("abstract_path", "may_partition"),
    "preimages": ("weakest_pre", "call_bridge"),
    "trails": ("must_region",),
    "slices": ("punch_step", "query_rules", "summary_table", "summary_form"),
    "board": ("bolt_core", "bolt_rounds", "bolt_workers", "query_tree", "board_lock"),
}


def layer_of(function):
    crate = re.match(r"<*(\w+)::", function)
    name = crate[1] if crate else ""
    if name:
        return next((layer for layer, crates in LAYERS.items() if name in crates), "rest")
    return "C library"


def shares_of(file):
    """The shares of the layers in the instructions that callgrind noted in a file, the greatest first."""
    said = subprocess.run(["callgrind_annotate", "--threshold=100", file], capture_output=True, text=True, check=False).stdout
    sums = collections.Counter()
    for count, function in re.findall(r"(?m)^ *([\d,]+) \([ \d.]+%\) +[^\n]*?:((?:<|\w)[^\n]*)$", said):
        sums[layer_of(function)] += int(count.replace(",", ""))
    whole = sum(sums.values())
    return ", ".join(f"{layer} {100 * count // whole} %" for layer, count in sums.most_common() if 100 * count >= whole)


def is_short(ended):
    return ended.status is not None and ended.seconds < 1


def calls_of(name, counts):
    """How often a function was called, by the counts of callgrind, which names each function once and then by its number."""
    number = re.search(rf"(?m)^c?fn=\((\d+)\) {re.escape(name)}$", counts)
    return sum(int(it) for it in re.findall(rf"(?m)^cfn=\({number[1]}\)[^\n]*\ncalls=(\d+)", counts)) if number else 0


def counted(command, path, ended):
    """The questions to the solver and the instructions of a short run, and where these go."""
    if not is_short(ended) or not shutil.which("valgrind"):
        return "-", "-", ""
    with tempfile.TemporaryDirectory() as room, open(path, "rb") as source:
        file = f"{room}/counts"
        words = ["valgrind", "--tool=callgrind", f"--callgrind-out-file={file}", *command]
        subprocess.run(words, stdin=source, stdout=subprocess.DEVNULL, stderr=subprocess.DEVNULL)
        with open(file, encoding="utf-8", errors="replace") as it:
            counts = it.read()
        said = re.search(r"(?m)^(?:summary|totals): (\d+)", counts)
        return str(calls_of(QUESTION, counts)), said[1] if said else "-", shares_of(file)


def steps_of(command, path, ended):
    """The least budget with which a short run says the same."""
    if not is_short(ended) or ended.status == 3 or "budget" in ended.text or "--budget" in command:
        return "-"
    low, high = 1, 2000
    while low < high:
        middle = (low + high) // 2
        if run([*command, "--budget", str(middle)], path, 10).text == ended.text:
            high = middle
        else:
            low = middle + 1
    return str(low)


def places(path):
    """The line and the column of each assertion, in source order."""
    with open(path, encoding="utf-8") as it:
        source = it.read()
    gaps = re.compile(r"/\*.*?\*/|//[^\n]*", re.S)
    source = gaps.sub(lambda gap: re.sub(r"[^\n]", " ", gap[0]), source)
    starts = [it.start() for it in re.finditer(r"\bassert\s*\(", source)]
    return [(source.count("\n", 0, at) + 1, at - source.rfind("\n", 0, at)) for at in starts]


def summary_of(verdicts):
    """The last line of a report, and its status."""
    kinds = collections.Counter(it.split()[0] for it in verdicts)
    line = f"summary: {kinds['proved']} proved, {kinds['found']} found, {kinds['unknown']} unknown"
    return line, 1 if kinds["found"] else 2 if kinds["unknown"] else 0


def faults_of_form(program, path, ended, limit):
    """The verdicts of a report, and what is wrong with its form, its status and its lists."""
    if ended.status is None:
        return None, [f"more than {limit} seconds"]
    owed = places(path)
    lines = ended.text.split("\n")
    split = [re.fullmatch(r"(\d+):(\d+): (.*)", line) for line in lines[: len(owed)]]
    if len(lines) != len(owed) + 2 or lines[-1] != "" or not all(it and VERDICT.fullmatch(it[3]) for it in split):
        return None, [f"no report of {len(owed)} assertions, status {ended.status}"]
    verdicts = [it[3] for it in split]
    faults = []
    if [(int(it[1]), int(it[2])) for it in split] != owed:
        faults.append(f"not the places {owed}")
    if (lines[len(owed)], ended.status) != summary_of(verdicts):
        faults.append(f"not the summary and the status {summary_of(verdicts)}, but {ended.status}")
    for (line, column), verdict in zip(owed, verdicts):
        if verdict.startswith("found"):
            again = run([program, "replay", "--fuel", "1000000000", verdict.removeprefix("found ")], path, limit)
            if again.status != 1 or not again.text.startswith(f"failed {line}:{column},"):
                faults.append(f"{line}:{column}: the list replays as '{again.text.strip()}'")
    return verdicts, faults


def faults_of_answer(verdicts, wanted):
    """Where the verdicts aren't those wanted. `found` alone wants no list of its own."""
    are = len(verdicts) == len(wanted) and all(it == want or (want == "found" and it.startswith("found")) for it, want in zip(verdicts, wanted))
    return [] if are else [f"wanted is {'; '.join(wanted)}"]


def faults_of_truth(verdicts, truth):
    told = [it.split()[0] for it in verdicts]
    return [f"assertion {n + 1} is {true} in truth" for n, true in truth.items() if told[n] not in (true, "unknown")]


def rows(path):
    with open(path, encoding="utf-8") as it:
        return [line.rstrip("\n").split("\t") for line in it.readlines()[1:]]


def below(folder):
    """The programs below a folder, and what is true of the assertions of each."""
    truths = collections.defaultdict(dict)
    if os.path.exists(f"{folder}/truth.tsv"):
        for name, number, truth, *_ in rows(f"{folder}/truth.tsv"):
            truths[name][int(number) - 1] = truth
    found = [os.path.relpath(f"{at}/{name}", folder) for at, _, names in os.walk(folder) for name in names if name.endswith(".c")]
    return [(name, truths[name]) for name in sorted(found)]


def shown(name, command, path, ended, faults):
    alone = [*command, "--workers", "1"]
    questions, instructions, shares = counted(alone, path, ended)
    steps = steps_of(alone, path, ended)
    print(f"{name:30} {ended.seconds:9.3f} s {ended.memory:9} KB {steps:>5} steps {questions:>6} questions {instructions:>12} instructions")
    if shares:
        print(f"    ({shares})")
    lines = ended.text.split("\n")
    for line in lines[:-2] or lines[:1]:
        print(f"    {line}" if line else "    no text")
    for fault in faults:
        print(f"    WRONG {fault}")
    sys.stdout.flush()
    return bool(faults)


def by_table(program, folder, table, limit):
    wrong = 0
    for name, words, status, verdicts in rows(table):
        path, command, wanted = f"{folder}/{name}", [program, *words.split()], verdicts.split("; ")
        ended = run(command, path, limit)
        told, faults = faults_of_form(program, path, ended, limit)
        if told:
            faults += faults_of_answer(told, wanted)
        if ended.status is not None and ended.status != int(status):
            faults.append(f"status {ended.status}, where {status} is wanted")
        wrong += shown(name, command, path, ended, faults)
    return len(rows(table)), wrong


def by_truth(program, folder, limit):
    """A program that is refused, or takes too long, has no verdict, and isn't wrong."""
    wrong, silent = 0, 0
    command = [program, "check"]
    for name, truth in below(folder):
        path = f"{folder}/{name}"
        ended = run(command, path, limit)
        if ended.status in (None, 3):
            silent += 1
            shown(name, command, path, ended, [])
            continue
        told, faults = faults_of_form(program, path, ended, limit)
        wrong += shown(name, command, path, ended, faults + (faults_of_truth(told, truth) if told else []))
    print(f"{silent} without a verdict")
    return len(below(folder)), wrong


def main(words):
    limit = 120.0
    if words[:1] == ["--limit"]:
        limit, words = float(words[1]), words[2:]
    if len(words) not in (2, 3):
        sys.exit(__doc__)
    program, folder, *table = words
    many, wrong = by_table(program, folder, table[0], limit) if table else by_truth(program, folder, limit)
    print(f"{many} programs, {wrong} wrong")
    return 1 if wrong else 0


if __name__ == "__main__":
    sys.exit(main(sys.argv[1:]))
