"""Asks the questions of files and says what the solver takes for each, and where its instructions go.

usage: questions.py PROGRAM APART FOLDER

FOLDER has files NAME.txt with a question a line (a letter, a blank, and rows `COEFFICIENT*COLUMN .. CONSTANT`, each ended by
`;`), and NAME.answers with what they come to. The program asks those of standard input: with no word it writes the answers,
with `refutes` it also checks each certificate, with `entails` it asks whether all rows but the last one entail the negation of
that one, and with `read` it asks nothing; a second word keeps it quiet. Answers are compared line by line. For each file and each
way of asking it prints how many questions there are and, where valgrind is there, the instructions of a question, less those
of reading it, with the shares of what they are for. APART is the same program with no function inlined by a hint: the shares are
of its instructions, since those of an inlined function count as its caller's. The status is 1 where an answer is another one.
"""
import collections
import os
import re
import shutil
import subprocess
import sys
import tempfile

# What a function does, by its name; the first that fits.
PARTS = (
    ("equal rows", r"lia_solver::table::"),
    ("range rows", r"lia_solver::(gather|columns|narrow)::"),
    ("certificates", r"lia_solver::derivation::|infeasible_cert::"),
    ("elimination", r"lia_solver::"),
    ("allocator", r"(?!\w+::|<)|std_alloc::|std_heap::"),
)
# The lines of an answer that tell how a question ends.
ENDS = re.compile(r"point|never|columns|wide|rows|branches")


def part_of(function):
    return next((part for part, names in PARTS if re.match(names, function)), "copies and the rest")


def instructions_of(command, path):
    """The instructions of one run by the functions that take them."""
    with tempfile.TemporaryDirectory() as room, open(path, "rb") as source:
        file = f"{room}/counts"
        subprocess.run(
            ["valgrind", "--tool=callgrind", f"--callgrind-out-file={file}", *command],
            stdin=source, stdout=subprocess.DEVNULL, stderr=subprocess.DEVNULL, check=True,
        )
        said = subprocess.run(["callgrind_annotate", "--threshold=100", file], capture_output=True, text=True, check=True).stdout
    sums = collections.Counter()
    for count, function in re.findall(r"(?m)^ *([\d,]+) \([ \d.]+%\) +[^\n]*?:((?:<|\w)[^\n]*)$", said):
        sums[part_of(function)] += int(count.replace(",", ""))
    return sums


def is_right(program, word, path, answers):
    """Whether the answers are those of the file, with the values of points where no word is given."""
    with open(path, "rb") as source:
        said = subprocess.run([program, *([word] if word else [])], stdin=source, capture_output=True, text=True).stdout
    with open(answers, encoding="utf-8") as it:
        wanted = it.read()
    if word:
        wanted = "".join(f"{line}\n" for line in wanted.splitlines() if ENDS.match(line))
    return said == wanted


def instructions_beyond(program, word, path):
    """The instructions of asking, by what they are for, without those of reading."""
    taken = instructions_of([program, word or "solve", "quiet"], path)
    taken.subtract(instructions_of([program, "read", "quiet"], path))
    return taken


def tell(program, apart, word, path, answers):
    """Asks the questions of a file in one way, and prints a line. Whether the answers are right."""
    if answers and not is_right(program, word, path, answers):
        print(f"{os.path.basename(path)} {word}: other answers")
        return False
    with open(path, encoding="utf-8") as it:
        count = sum(1 for _ in it)
    each, shares = "-", ""
    if shutil.which("valgrind"):
        each = sum(instructions_beyond(program, word, path).values()) // count
        taken = instructions_beyond(apart, word, path)
        whole = sum(taken.values())
        shares = ", ".join(f"{part} {100 * it // whole} %" for part, it in taken.most_common() if 100 * it >= whole)
    print(f"{os.path.basename(path):16} {word or 'solve':8} {count:6} {each:>12}  {shares}", flush=True)
    return True


def main():
    program, apart, folder = sys.argv[1:]
    print(f"{'file':16} {'asked':8} {'count':>6} {'instructions':>12}  shares")
    right = True
    for name in sorted(it for it in os.listdir(folder) if it.endswith(".txt")):
        path = os.path.join(folder, name)
        answers = path.removesuffix(".txt") + ".answers"
        answers = answers if os.path.exists(answers) else None
        for word in ("", "refutes", "entails"):
            right = tell(program, apart, word, path, answers) and right
    sys.exit(0 if right else 1)


if __name__ == "__main__":
    main()
