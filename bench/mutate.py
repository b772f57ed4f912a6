"""Changes right bundles at random, and holds what `recheck` says of each to an independent reading.

usage: mutate.py [--changes N] [--seed S] [--limit SECONDS] PROGRAM FOLDER..
       mutate.py --reader       holds the reader of bundle_text.py alone to grammar_cases.py

The bundles are those of all proved assertions of the programs below the folders whose check by one worker takes less than a
fifth of a second, with the default budget, up to 50,000 bytes. A change is of a byte, a number or a line, which is made
another one, removed, doubled or exchanged with another one; of a part of the bundle (a claim, a move, a row, a pair), so that
the counts stay right; or of its source.

Each changed text is read by bundle_text.py: `recheck` has to say `refused: not a bundle` exactly where that doesn't read it.
A refusal of the source has to be that of `check`, and one of the assertion's number right. Where a text is accepted, the
place has to be that of its assertion in its source, `check --budget 20000` of that source mustn't find the assertion, and
`replay` mustn't fail at it on 200 small lists of inputs. A text for which something isn't so is kept in
out/mutants, and the status is 1.
"""
import collections
import os
import random
import re
import sys

sys.dont_write_bytecode = True
import bundle_text
from edit import comparison_changed, literal_changed, sign_changed, statement_removed
from grammar_cases import CASES
from running import TOP, options, places_of, programs, ran

MOST_BYTES, MOST_SECONDS, LISTS, FUEL = 50_000, 0.2, 200, "20000"
# The seconds that a check with the greatest budget may take: it mostly ends sooner where it finds something.
DEEP = 3
SPECIAL = [0, 1, -1, 2, 511, 1023, 1025, 2**32 - 1, 2**32, 2**40, 2**40 + 1, 2**63 - 1, 2**63, 2**64, 2**84, 2**84 + 1]
NO_BUNDLE = "refused: not a bundle\n"


# Changes

def byte_changed(dice, text):
    at = dice.randrange(len(text))
    byte = dice.choice([text[at] ^ 1 << dice.randrange(8), dice.randrange(256), dice.choice(b"0123456789 -\n")])
    return text[:at] + bytes([byte]) + text[at + 1 :]


def byte_removed(dice, text):
    at = dice.randrange(len(text))
    return text[:at] + text[at + 1 :]


def byte_doubled(dice, text):
    at = dice.randrange(len(text))
    return text[:at] + text[at : at + 1] + text[at:]


def bytes_exchanged(dice, text):
    at, to = sorted(dice.randrange(len(text)) for _ in range(2))
    to = min(to, at + 1) if dice.random() < 0.5 else to
    return text if at == to else text[:at] + text[to : to + 1] + text[at + 1 : to] + text[at : at + 1] + text[to + 1 :]


def span_of_number(dice, text):
    """Where a number stands, mostly behind the source."""
    behind = text.index(b"\nassert ")
    found = list(re.finditer(rb"-?\d+", text if dice.random() < 0.1 else text[behind:]))
    it = dice.choice(found)
    shift = len(text) - len(it.string)
    return it.start() + shift, it.end() + shift


def number_changed(dice, text):
    start, end = span_of_number(dice, text)
    old = int(text[start:end])
    new = dice.choice([old + 1, old - 1, -old, old * 2, old // 2, dice.choice(SPECIAL), -dice.choice(SPECIAL), dice.randrange(20)])
    return text[:start] + str(new).encode() + text[end:]


def number_removed(dice, text):
    start, end = span_of_number(dice, text)
    return text[:start] + text[end + dice.randrange(2) :]


def number_doubled(dice, text):
    start, end = span_of_number(dice, text)
    return text[:end] + dice.choice([b"", b" "]) + text[start:]


def numbers_exchanged(dice, text):
    (a, b), (c, d) = sorted([span_of_number(dice, text), span_of_number(dice, text)])
    return text if b > c else text[:a] + text[c:d] + text[b:c] + text[a:b] + text[d:]


def of_lines(change):
    def changed(dice, text):
        lines = text.split(b"\n")
        change(dice, lines)
        return b"\n".join(lines)
    return changed


def removed(dice, items):
    del items[dice.randrange(len(items))]


def doubled(dice, items):
    at = dice.randrange(len(items))
    items.insert(at, items[at])


def exchanged(dice, items):
    at, to = dice.randrange(len(items)), dice.randrange(len(items))
    items[at], items[to] = items[to], items[at]


def lists_of(it):
    """All lists within a part that have something."""
    if isinstance(it, list):
        here = [it] if it else []
        return here + [found for part in it for found in lists_of(part)]
    return [found for part in vars(it).values() for found in lists_of(part)] if hasattr(it, "__dict__") else []


def of_parts(change):
    def changed(dice, text):
        it = bundle_text.read(text)
        change(dice, dice.choice(lists_of(it)))
        return bundle_text.printed(it)
    return changed


def assertion_changed(dice, text):
    it = bundle_text.read(text)
    it.assertion = dice.randrange(1, 6)
    return bundle_text.printed(it)


def of_source(change):
    def changed(dice, text):
        it = bundle_text.read(text)
        it.source = change(dice, it.source.decode("latin-1")).encode("latin-1")[: bundle_text.MAX_SOURCE]
        return bundle_text.printed(it)
    return changed


CHANGES = {
    "a byte changed": byte_changed, "a byte removed": byte_removed, "a byte doubled": byte_doubled, "two bytes exchanged": bytes_exchanged,
    "a number changed": number_changed, "a number removed": number_removed, "a number doubled": number_doubled,
    "two numbers exchanged": numbers_exchanged,
    "a line removed": of_lines(removed), "a line doubled": of_lines(doubled), "two lines exchanged": of_lines(exchanged),
    "a part removed": of_parts(removed), "a part doubled": of_parts(doubled), "two parts exchanged": of_parts(exchanged),
    "another assertion": assertion_changed,
    "a literal of the source": of_source(literal_changed), "a comparison of it": of_source(comparison_changed),
    "a sign of it": of_source(sign_changed), "a statement of it": of_source(statement_removed),
}


# What is held

class Judge:
    """A program, and what was found out of the sources of accepted texts."""

    def __init__(self, program, limit, dice):
        self.program, self.limit, self.dice = program, limit, dice
        self.checks, self.deep, self.claims = {}, {}, {}

    def check(self, source):
        if source not in self.checks:
            self.checks[source] = ran([self.program, "check"], source, 60)
        return self.checks[source]

    def fault(self, text):
        """What `recheck` says of a text, in a word, and what is wrong with it."""
        said = ran([self.program, "recheck"], text, self.limit)
        if said.status not in (0, 2, 3):
            return "else", f"status {said.status}, where it may be 0, 2 or 3: {said.text[:60]!r}"
        try:
            it = bundle_text.read(text)
        except bundle_text.NotBundle as why:
            right = (said.status, said.text) == (3, NO_BUNDLE)
            return "no bundle", "" if right else f"{said.text!r}, where it is no bundle: {why}"
        if said.text == NO_BUNDLE:
            return "no bundle", "called no bundle, where it is one"
        return self.of_bundle(it, said)

    def of_bundle(self, it, said):
        """What is told of a bundle, and what is wrong with it."""
        if said.status == 3:
            return "refused", self.of_refusal(it, said)
        if said.status == 2:
            number = re.fullmatch(r"rejected claim (\d+)\n", said.text)
            right = number and int(number[1]) < max(1, len(it.claims))
            return "rejected", "" if right else f"{said.text!r}, of {len(it.claims)} claims"
        return "accepted", self.of_accepted(it, said)

    def of_refusal(self, it, said):
        checked = self.check(it.source)
        if said.text == "refused: no such assertion\n":
            right = checked.status not in (3, None) and it.assertion > len(places_of(it.source))
        else:
            right = (checked.status, checked.text) == (3, said.text)
        return "" if right else f"{said.text!r}, where check says {checked.text[:60]!r}"

    def of_accepted(self, it, said):
        places = places_of(it.source)
        if it.assertion > len(places):
            return f"{said.text!r}, of {len(places)} assertions"
        line, column = places[it.assertion - 1]
        if said.text != f"accepted {line}:{column}\n":
            return f"{said.text!r}, where the assertion is at {line}:{column}"
        key = it.source, it.assertion
        if key not in self.claims:
            self.claims[key] = self.found_by_check(it, line, column) or self.fails_on_inputs(it, f"failed {line}:{column},")
        return self.claims[key]

    def found_by_check(self, it, line, column):
        if it.source not in self.deep:
            self.deep[it.source] = ran([self.program, "check", "--budget", "20000"], it.source, DEEP)
        said = self.deep[it.source]
        told = re.search(rf"(?m)^{line}:{column}: found .*$", said.text)
        return f"accepted, but check says {told[0]}" if told and said.status is not None else ""

    def fails_on_inputs(self, it, failed):
        """Replays on small lists, the shorter ones first: only those are longer whose inputs were all asked for."""
        numbers = {int(number) for number in re.findall(rb"\d{1,6}", it.source)}
        values = sorted({-1, 0, 1, 2} | set(self.dice.sample(sorted(numbers), min(4, len(numbers)))))
        lists = collections.deque([[]])
        for _ in range(LISTS):
            if not lists:
                break
            inputs = lists.popleft()
            said = ran([self.program, "replay", "--fuel", FUEL, str(inputs)], it.source, self.limit)
            if said.text.startswith(failed):
                return f"accepted, but replay {inputs} says {said.text.strip()}"
            if said.text.startswith("starved"):
                lists.extend([*inputs, value] for value in self.dice.sample(values, len(values)))
        return ""


def bundles_of(program, folders):
    """The bundles of the programs below the folders, by their names."""
    found = {}
    for folder in folders:
        for name, source in programs(folder):
            checked = ran([program, "check", "--workers", "1"], source, 10)
            if checked.status is None or checked.seconds > MOST_SECONDS:
                continue
            for number, line in enumerate(checked.text.split("\n"), 1):
                if line.endswith(": proved"):
                    said = ran([program, "bundle", str(number)], source, 60)
                    text = said.text.encode("latin-1")
                    if said.status == 0 and len(text) <= MOST_BYTES:
                        found[f"{name}:{number}"] = text
    return found


def kept(text, why):
    """Keeps a text that shows a fault, and says where."""
    os.makedirs(f"{TOP}/out/mutants", exist_ok=True)
    path = f"{TOP}/out/mutants/{len(os.listdir(f'{TOP}/out/mutants'))}.txt"
    with open(path, "wb") as it:
        it.write(text)
    print(f"    WRONG {why}: {path}", flush=True)


def by_cases(judge):
    wrong = 0
    for name, is_bundle, text in CASES:
        told, fault = judge.fault(text)
        if not fault and (told == "no bundle") == is_bundle:
            fault = f"{told}, by hand"
        if fault:
            kept(text, f"{name}: {fault}")
        wrong += bool(fault)
    print(f"{len(CASES)} texts at the limits of the grammar, {wrong} wrong", flush=True)
    return wrong


def as_they_are(judge, found):
    """Each bundle is printed by the reader as it was, and accepted."""
    wrong = 0
    for name, text in found.items():
        same = bundle_text.is_bundle(text) and bundle_text.printed(bundle_text.read(text)) == text
        said = ran([judge.program, "recheck"], text, judge.limit)
        told, fault = ("accepted" if said.status == 0 else said.text, "") if same else ("", "read and printed otherwise")
        if not fault and told != "accepted":
            fault = told
        if fault:
            kept(text, f"{name}: {fault}")
        wrong += bool(fault)
    sizes = sorted(map(len, found.values()))
    print(f"{len(found)} bundles of {sizes[0]} to {sizes[-1]} bytes, {wrong} wrong", flush=True)
    return wrong


def another(dice, texts, kinds):
    """A text that a change made another one."""
    while True:
        (name, text), kind = dice.choice(texts), dice.choice(kinds)
        new = CHANGES[kind](dice, text)
        if new != text:
            return name, kind, new


def changed_texts(judge, found, dice, many):
    counts, wrong = {kind: collections.Counter() for kind in CHANGES}, 0
    texts, kinds = sorted(found.items()), sorted(CHANGES)
    for _ in range(many):
        name, kind, new = another(dice, texts, kinds)
        told, fault = judge.fault(new)
        counts[kind][told] += 1
        if fault:
            wrong += 1
            kept(new, f"{name}, {kind}: {fault}")
    return counts, wrong


WORDS = ["no bundle", "refused", "rejected", "accepted", "else"]


def shown(counts):
    print("| change | " + " | ".join(WORDS) + " |\n|---|" + "---|" * len(WORDS))
    for kind, told in counts.items():
        print(f"| {kind} | " + " | ".join(str(told[word]) for word in WORDS) + " |")
    whole = sum(counts.values(), collections.Counter())
    print("| all | " + " | ".join(str(whole[word]) for word in WORDS) + " |")


def by_reader():
    wrong = [name for name, is_bundle, text in CASES if bundle_text.is_bundle(text) != is_bundle]
    again = [name for name, is_bundle, text in CASES if is_bundle and bundle_text.printed(bundle_text.read(text)) != text]
    print(f"{len(CASES)} texts, {len(wrong + again)} read otherwise {wrong + again or ''}")
    return 1 if wrong + again else 0


def main(words):
    if words == ["--reader"]:
        return by_reader()
    given, (program, *folders) = options(words, {"changes": 10000, "seed": 0, "limit": 10.0}, __doc__)
    seed = given["seed"] or random.SystemRandom().randrange(1, 2**31)
    print(f"seed {seed}", flush=True)
    dice = random.Random(seed)
    judge = Judge(program, given["limit"], dice)
    wrong = by_cases(judge)
    found = bundles_of(program, folders)
    if not found:
        print("no bundle was made")
        return 1
    wrong += as_they_are(judge, found)
    counts, more = changed_texts(judge, found, dice, given["changes"])
    shown(counts)
    slow = sum(it.status is None for it in judge.deep.values())
    print(f"{len(judge.claims)} assertions of accepted texts were looked at, of {len(judge.deep)} sources; check took more than {DEEP} seconds of {slow}")
    print(f"{given['changes']} changes, {wrong + more} wrong")
    return 1 if wrong + more else 0


if __name__ == "__main__":
    sys.exit(main(sys.argv[1:]))
