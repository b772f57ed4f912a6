"""Lists of inputs on which assertions fail, looked for by many runs of the small interpreter.

What is printed are candidates, each a line `LINE:COLUMN [..]`: the proved `replay` has to confirm each. The same source
and the same words always give the same candidates. A run that takes a condition in a way or a number of times that no
run did before is kept, and later lists begin as a changed copy of it.
"""
import random
import sys
from collections.abc import Iterator

from files.compiler import load
from files.lexer import Fault, literal_value
from files.machine import GREATEST, LEAST, Condition, Machine
from files.reports import Place, list_text

# Steps of one run, and of all.
FUEL, ALL_FUEL = 20_000, 4_000_000
LONGEST = 10_000
BOUNDARIES = (0, 1, -1, 2, 3, 4, 5, 6, 7, 8, 9, 10, 12, 16, 31, 60, 64, 100, 128, 255, 256, 1000, 65535, 65536)
EXTREMES = (2**31 - 1, 2**31, -(2**31), 2**32, GREATEST, GREATEST - 1, LEAST, LEAST + 1)
# The way that a condition went, and the condition before it with its way.
Way = tuple[int, int, bool]


class Supply(list[int]):
    """Inputs that come as they are asked for: first those of a list, then ones that are drawn."""

    def __init__(self, first: list[int], draw: "Draw") -> None:
        super().__init__(first)
        self.draw = draw

    def __len__(self) -> int:
        return LONGEST

    def __getitem__(self, at: int) -> int:  # type: ignore[override]
        while super().__len__() <= at:
            self.append(self.draw.value())
        return super().__getitem__(at)

    def taken(self, count: int) -> tuple[int, ...]:
        """The inputs that were taken."""
        return tuple(super().__getitem__(slice(0, count)))


class Draw:
    """Draws values: small ones, boundaries, the literals of a text and their neighbours, by a mood that changes."""

    def __init__(self, literals: list[int], chance: random.Random) -> None:
        self.chance = chance
        near = sorted({it + by for it in literals for by in (-1, 0, 1)} | {-it for it in literals})
        self.near = [it for it in near if LEAST <= it <= GREATEST] or [0]
        self.mood = 0
        self.most = 1
        self.same = 0

    def begin(self, number: int) -> None:
        """A new list: each number has its mood."""
        self.mood = number % 6
        self.most = self.chance.choice((1, 2, 3, 5, 10, 20, 100))
        self.same = self.chance.choice(self.near)

    def value(self) -> int:
        """The next value of the list."""
        chance = self.chance
        if self.mood == 0:
            return chance.randint(0, self.most)
        if self.mood == 1:
            return chance.choice(self.near)
        if self.mood == 2:
            return chance.choice(BOUNDARIES)
        if self.mood == 3:
            return self.same if chance.random() < 0.7 else chance.choice(self.near)
        if self.mood == 4:
            return chance.randint(-self.most, self.most)
        return chance.choice(self.near if chance.random() < 0.6 else BOUNDARIES if chance.random() < 0.8 else EXTREMES)

    def changed(self, values: list[int]) -> list[int]:
        """A list that is changed a little, or ends earlier, so that the rest is drawn."""
        values = list(values)
        for _ in range(self.chance.randint(1, 3)):
            if not values:
                break
            at = self.chance.randrange(len(values))
            how = self.chance.random()
            if how < 0.5:
                values[at] = self.value()
            elif how < 0.65:
                values[at] = max(LEAST, min(GREATEST, values[at] + self.chance.choice((-1, 1))))
            elif how < 0.75:
                del values[at]
            elif how < 0.85:
                values.insert(at, self.value())
            else:
                values = values[:at]
        return values


class Ways:
    """The ways that a run took: of each condition which side, and after which other one."""

    def __init__(self) -> None:
        self.seen: dict[Way, int] = {}
        self.last = 0

    def branched(self, at: Condition, truth: bool) -> None:
        """A condition was evaluated."""
        way = (self.last, id(at), truth)
        self.seen[way] = self.seen.get(way, 0) + 1
        self.last = id(at) * 2 + truth

    def taken(self) -> set[tuple[Way, int]]:
        """Each way with how often it was taken, in powers of two; the next run begins anew."""
        ways = {(way, count.bit_length()) for way, count in self.seen.items()}
        self.seen.clear()
        self.last = 0
        return ways


class Search:
    """Runs a program on many lists."""

    def __init__(self, text: str, wanted: set[Place]) -> None:
        self.ways = Ways()
        self.machine: Machine = load(text, ways=self.ways.branched)
        chance = random.Random(1)
        literals = [literal_value(text[start:end]) for start, end in self.machine.tree.literals]
        self.draw = Draw(sorted(set(literals)), chance)
        self.chance, self.wanted = chance, wanted
        self.kept: list[list[int]] = []
        self.known: set[tuple[Way, int]] = set()
        self.spent = 0

    def candidates(self, lists: int) -> Iterator[tuple[Place, tuple[int, ...]]]:
        """For each place the first list that failed there, as it is found."""
        for number in range(lists):
            if self.spent >= ALL_FUEL or not self.wanted:
                return
            self.draw.begin(number)
            supply = Supply(self.beginning(), self.draw)
            outcome = self.machine.run(supply, FUEL)
            self.spent += FUEL - self.machine.left
            inputs = supply.taken(outcome.used)
            self.keep(list(inputs))
            if outcome.how == "failed" and outcome.place in self.wanted:
                self.wanted.discard(outcome.place)
                yield outcome.place, inputs

    def beginning(self) -> list[int]:
        """How the next list begins: as a changed copy of one that was kept, or as nothing."""
        is_new = not self.kept or self.chance.random() < 0.4
        return [] if is_new else self.draw.changed(self.chance.choice(self.kept))

    def keep(self, inputs: list[int]) -> None:
        """Keeps a list whose run took a new way."""
        ways = self.ways.taken()
        if ways - self.known:
            self.known |= ways
            self.kept.append(inputs)


def main(words: list[str]) -> None:
    """The words are the number of lists and the places that are looked for; the source is standard input."""
    text = sys.stdin.buffer.read().decode("latin-1")
    wanted = {(int(line), int(column)) for line, _, column in (it.partition(":") for it in words[1:])}
    try:
        for (line, column), inputs in Search(text, wanted).candidates(int(words[0])):
            print(f"{line}:{column} {list_text(inputs)}", flush=True)
    except Fault as fault:
        print(f"no search: {fault}")
