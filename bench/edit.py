"""Gives edits of the programs of folders to `edit`, and holds its verdicts to those of `check` on the new source.

usage: edit.py [--limit SECONDS] [--random N] [--seed S] PROGRAM FOLDER..

An edit raises the first decimal literal in a body by one: in `main`, in the first procedure that calls no other one (a leaf),
and in the first one that does (a middle). Of each program with procedures beside `main` the source as it is comes first, whose
summaries all have to be kept. A line has the assertions, how many summaries were kept of how many, the seconds of `check` on
the new source and those of `edit` less those of `check` on the old one, and as many questions to the solver, under valgrind,
where all three runs take less than SHORT seconds. All are with one worker. A program whose check takes more seconds than the
limit (20) is left out.

With --random N edits are made at random, N in all: a literal, a comparison or a sign is changed, a statement taken away, a
comment put in, a procedure named otherwise or put first or last; by the programs' turns, among them the workload of 12
procedures. `edit` goes with one worker and with four. The status is 1 where something isn't as wanted; such sources are kept
in out/edits.
"""
import collections
import os
import random
import re
import sys
import tempfile

sys.dont_write_bytecode = True
from check import below, faults_of_form, faults_of_truth
from running import TOP, counted, options, ran, without_gaps

SHORT = 0.05
Procedure = collections.namedtuple("Procedure", "name start body end")
LITERAL = re.compile(r"\b(0|[1-9]\d*)\b")
KEPT = re.compile(r"kept (\d+) of (\d+)\n\Z")


# Programs as texts

def procedures(source):
    """The procedures of a source: where their definitions start, their bodies start and they end. Braces are counted."""
    text, depth, start, found = without_gaps(source), 0, 0, []
    for it in re.finditer(r"[{};]", text):
        if it[0] == "{":
            depth += 1
            if depth == 1:
                body = it.start()
        elif it[0] == "}":
            depth -= 1
        if depth == 0:
            head = re.search(r"(\w+)\s*\([^()]*\)\s*\Z", text[start:body]) if it[0] == "}" else None
            if head:
                found.append(Procedure(head[1], start, body, it.end()))
            start = it.end()
    return found


def callees(source, procedure, names):
    body = without_gaps(source)[procedure.body : procedure.end]
    return {name for name in re.findall(r"\b(\w+)\s*\(", body) if name in names and name != procedure.name}


def raised(source, procedure):
    """The source with the first literal of the body raised by one, or none where it has none."""
    it = LITERAL.search(without_gaps(source), procedure.body, procedure.end)
    return source[: it.start()] + str(int(it[0]) + 1) + source[it.end() :] if it else None


def first_raised(source, chosen):
    return next((new for it in chosen if (new := raised(source, it))), None)


def edits_of(source):
    """The edits of a source by their names, where it has procedures beside `main`."""
    found = procedures(source)
    names = {it.name for it in found}
    others = [it for it in found if it.name != "main"]
    if not others:
        return {}
    leaves = [it for it in others if not callees(source, it, names)]
    edits = {
        "as it was": source, "main": first_raised(source, [it for it in found if it.name == "main"]),
        "leaf": first_raised(source, leaves), "middle": first_raised(source, [it for it in others if it not in leaves]),
    }
    return {kind: new for kind, new in edits.items() if new}


def workload(many):
    """The text of the workload: workload_lines of crates/workload_gen/specs/Workload.antt."""
    lines, calls = [], ""
    for i in range(1, many + 1):
        fact = f"a != -{i}" if i % 3 == 0 else "a <= 0"
        lines.append(f"int p{i}(int a) {{ if (a > 0) {{ return 1; }} assert({fact}); return 0; }}")
        calls += f" if (k == {i}) {{ p{i}(v); }}"
    return "\n".join([*lines, f"int main() {{ int k = input(); int v = input();{calls} return 0; }}"]) + "\n"


# Edits at random

def replaced(dice, source, pattern, new):
    """The source with one place of a pattern, outside comments, changed."""
    found = list(re.finditer(pattern, without_gaps(source)))
    if not found:
        return source
    it = dice.choice(found)
    return source[: it.start()] + new(it[0]) + source[it.end() :]


def literal_changed(dice, source):
    return replaced(dice, source, LITERAL, lambda old: str(max(0, dice.choice([int(old) + 1, int(old) - 1, 2 * int(old), 0, int(old) + 7]))))


def comparison_changed(dice, source):
    kinds = ["<", "<=", ">", ">=", "==", "!="]
    return replaced(dice, source, r"[<>]=?|[=!]=", lambda old: dice.choice([it for it in kinds if it != old]))


def sign_changed(dice, source):
    return replaced(dice, source, r"(?<![+-])[+-](?![+=-])", lambda old: "-" if old == "+" else "+")


def statement_removed(dice, source):
    return replaced(dice, source, r"(?<=[;{}])[^;{}()]*(?:\([^;{}]*\))?\s*;", lambda old: "")


def comment_put_in(dice, source):
    return replaced(dice, source, r"\s", lambda old: f"{old}/* a line\n more */\n")


def procedure_renamed(dice, source):
    names = [it.name for it in procedures(source) if it.name != "main"]
    if not names:
        return source
    name = dice.choice(names)
    return re.sub(rf"\b{name}\b", f"{name}_again", source)


def procedure_moved(dice, source):
    it = dice.choice(procedures(source))
    rest, moved = source[: it.start] + source[it.end :], source[it.start : it.end]
    return rest + moved + "\n" if dice.random() < 0.5 else moved + "\n" + rest


CHANGES = [literal_changed, comparison_changed, sign_changed, statement_removed, comment_put_in, procedure_renamed, procedure_moved]


# What is held

class Pair:
    """An old and a new source of a program, and what `check` says of the two."""

    def __init__(self, program, old, new, limit):
        self.program, self.old, self.new, self.limit = program, old.encode("latin-1"), new.encode("latin-1"), limit
        self.check = [program, "check", "--workers", "1"]

    def edit_words(self, workers=1):
        return [self.program, "edit", str(len(self.old)), "--workers", str(workers)]

    def checked(self, source):
        return ran(self.check, source, self.limit)

    def edited(self, workers=1):
        return ran(self.edit_words(workers), self.old + self.new, 3 * self.limit)

    def faults(self, checked, edited):
        """The verdicts of `edit`, how many summaries were kept of how many, and what is wrong."""
        if edited.status is None:
            return [], None, [] if checked.status is None else ["edit doesn't end in time, and check does"]
        if checked.status == 3:
            return [], None, [] if (edited.status, edited.text) == (3, checked.text) else [f"edit says {edited.text[:80]!r}, and check {checked.text[:80]!r}"]
        kept = KEPT.search(edited.text)
        if not kept or int(kept[1]) > int(kept[2]):
            return [], None, [f"status {edited.status}, {edited.text[-80:]!r} has no count of summaries"]
        with tempfile.NamedTemporaryFile() as file:
            file.write(self.new)
            file.flush()
            told, faults = faults_of_form(self.program, file.name, edited._replace(text=edited.text[: kept.start()]), self.limit)
            others = faults_of_form(self.program, file.name, checked, self.limit)[0] if checked.status is not None else None
        return told or [], kept, faults + contradictions(told or [], others or [])


def contradictions(told, others):
    return [f"assertion {number}: {one} by edit, {other} by check" for number, (one, other) in enumerate(zip(told, others), 1)
            if {one.split()[0], other.split()[0]} == {"proved", "found"}]


def kept_sources(pair, why):
    """Keeps the two sources that show a fault, and says where."""
    os.makedirs(f"{TOP}/out/edits", exist_ok=True)
    number = len(os.listdir(f"{TOP}/out/edits"))
    path = f"{TOP}/out/edits/{number}-{len(pair.old)}.txt"
    with open(path, "wb") as it:
        it.write(pair.old + pair.new)
    print(f"    WRONG {why}: {path}", flush=True)


def questions_of(pair, runs):
    """The questions of a check of the new source, and those of the edit less those of a check of the old one."""
    if any(it.seconds > SHORT for it in runs):
        return None
    new, old, both = counted(pair.check, pair.new)[0], counted(pair.check, pair.old)[0], counted(pair.edit_words(), pair.old + pair.new)[0]
    return None if None in (new, old, both) else (new, both - old)


Measured = collections.namedtuple("Measured", "kind check edit questions kept all")


def of_edit(name, kind, pair, old, truth):
    """What an edit takes, and whether something is wrong with it."""
    new = old if pair.new == pair.old else pair.checked(pair.new)
    edited = pair.edited()
    told, kept, faults = pair.faults(new, edited)
    if kind == "as it was" and kept:
        faults += faults_of_truth(told, truth) + ([f"{kept[0].strip()}, of a source as it was"] if kept[1] != kept[2] else [])
    questions = questions_of(pair, [old, new, edited]) if kept else None
    count = f"{questions[0]:7} {questions[1]:7} questions" if questions else f"{'-':>7} {'-':>7} questions"
    text = kept[0].strip() if kept else edited.text.strip()[:60]
    print(f"{name:30} {kind:10} {new.seconds:8.3f} {max(0, edited.seconds - old.seconds):8.3f} s {count}  {text}", flush=True)
    for fault in faults:
        kept_sources(pair, f"{name}, {kind}: {fault}")
    measured = Measured(kind, new.seconds, edited.seconds - old.seconds, questions, int(kept[1]), int(kept[2])) if kept and new.status is not None else None
    return measured, bool(faults)


def named(folders):
    for folder in folders:
        for name, truth in below(folder):
            with open(f"{folder}/{name}", encoding="latin-1") as it:
                yield name, it.read(), truth


def by_edits(program, folders, limit):
    print(f"{'program':30} {'edit':10} {'check':>8} {'edit':>8}   {'check':>7} {'edit':>7}")
    found, wrong = [], 0
    for name, source, truth in named(folders):
        for kind, new in edits_of(source).items():
            pair = Pair(program, source, new, limit)
            old = pair.checked(pair.old)
            if old.status not in (0, 1, 2):
                print(f"{name:30} {kind:10} {'no check in time' if old.status is None else old.text.strip()}", flush=True)
                break
            measured, is_wrong = of_edit(name, kind, pair, old, truth)
            found += [measured] if measured else []
            wrong += is_wrong
    for kind in ("as it was", "main", "leaf", "middle"):
        summed(kind, [it for it in found if it.kind == kind])
    print(f"{len(found)} edits, {wrong} wrong")
    return wrong


def summed(kind, found):
    if not found:
        return
    asked = [it.questions for it in found if it.questions]
    questions = f"; questions {sum(it[0] for it in asked)} by check and {sum(it[1] for it in asked)} by edit, of {len(asked)}"
    print(f"{kind}: {len(found)} edits, {sum(it.check for it in found):.2f} s by check and {sum(it.edit for it in found):.2f} s by edit, "
          f"kept {sum(it.kept for it in found)} of {sum(it.all for it in found)}{questions if asked else ''}")


def is_workload(program, source, many):
    """Whether the text is the workload's, as far as reports tell."""
    return ran([program, "workload", str(many), "--workers", "1"], b"").text == ran([program, "check", "--workers", "1"], source.encode()).text


def at_random(program, folders, limit, many, seed):
    seed = seed or random.SystemRandom().randrange(1, 2**31)
    print(f"seed {seed}", flush=True)
    dice = random.Random(seed)
    sources = [(name, source) for name, source, _ in named(folders)] + [("workload 12", workload(12))]
    sources = [(name, source) for name, source in sources if (ended := ran([program, "check", "--workers", "1"], source.encode("latin-1"), limit)).status in (0, 1, 2)]
    wrong, counts = 0, collections.Counter()
    if not is_workload(program, workload(12), 12):
        print("    WRONG the text of the workload is another one")
        wrong += 1
    for turn in range(many):
        name, source = sources[turn % len(sources)] if turn % 10 else sources[-1]
        change = dice.choice(CHANGES)
        pair = Pair(program, source, change(dice, source), limit)
        wrong += of_random(name, change.__name__, pair, counts)
    for change in CHANGES:
        print(f"{change.__name__.replace('_', ' '):20} " + ", ".join(f"{count} {word}" for (kind, word), count in sorted(counts.items()) if kind == change.__name__))
    print(f"{many} edits, {wrong} wrong")
    return wrong


def of_random(name, kind, pair, counts):
    """Whether something is wrong with a random edit, with one worker and with four."""
    new, wrong = pair.checked(pair.new), []
    for workers in (1, 4):
        told, kept, faults = pair.faults(new, pair.edited(workers))
        wrong += [f"{name}, {kind}, {workers} workers: {it}" for it in faults]
    counts[kind, "refused" if new.status == 3 else "without a check in time" if new.status is None else "checked"] += 1
    if kept:
        counts[kind, "with summaries kept"] += int(kept[1]) > 0
    for fault in wrong:
        kept_sources(pair, fault)
    return bool(wrong)


def main(words):
    given, (program, *folders) = options(words, {"limit": 20.0, "random": 0, "seed": 0}, __doc__)
    if given["random"]:
        return 1 if at_random(program, folders, given["limit"], given["random"], given["seed"]) else 0
    return 1 if by_edits(program, folders, given["limit"]) else 0


if __name__ == "__main__":
    sys.exit(main(sys.argv[1:]))
