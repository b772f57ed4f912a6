"""Random small programs: what is written of them is accepted, and never where the check finds a failure."""

import random
import tempfile
from collections.abc import Iterator
from pathlib import Path

from settings import Case, Setting

PROGRAMS = 24
NAMES = ("a", "b", "c", "g")


class Program:
    """A random program: a global, a procedure, and `main` with a loop and assertions."""

    def __init__(self, seed: int) -> None:
        self.chance = random.Random(seed)

    def pick(self, *items: str) -> str:
        """One of the texts."""
        return self.chance.choice(items)

    def value(self) -> str:
        """An expression."""
        name, number = self.pick(*NAMES), str(self.chance.randint(-5, 9))
        other = self.pick(*NAMES)
        sums = (f"{name} + {number}", f"{name} - {other}", f"2 * {name}")
        return self.pick(name, number, *sums, f"{name} / 3", f"{name} % 2")

    def test(self) -> str:
        """A comparison, or two."""
        one = f"{self.value()} {self.pick('<', '<=', '>', '>=', '==', '!=')} {self.value()}"
        return self.pick(one, one, f"{one} && {self.pick(*NAMES)} >= 0", f"!({one})")

    def statement(self, depth: int) -> str:
        """A statement."""
        if depth and self.chance.random() < 0.3:
            met, unmet = self.statement(depth - 1), self.statement(depth - 1)
            return f"if ({self.test()}) {{ {met} }} else {{ {unmet} }}"
        name = self.pick("a", "b", "g")
        return self.pick(f"{name} = {self.value()};", f"{name}++;", f"{name} = {name} - 1;", "g = f(a, b);")

    def text(self) -> str:
        """The program."""
        body = "\n    ".join(self.statement(2) for _ in range(2))
        return f"""int g = {self.chance.randint(0, 3)};
int f(int a, int b) {{
  int c = 1;
  if (a > b) {{ g = g + 1; return {self.pick('a', 'b', 'a - b', 'c')}; }}
  return {self.pick('b', 'a', 'g', 'b - a')};
}}
int main() {{
  int a = input(), b = {self.chance.randint(0, 4)}, c = 0;
  assume(a >= 0 && a <= {self.chance.randint(3, 40)});
  while (c < a) {{
    {body}
    c++;
    assert(c {self.pick('<=', '<=', '<')} a || {self.test()});
  }}
  assert({self.pick('c >= 0', 'c >= a || a < 0', self.test())});
  return 0;
}}
"""


def honest(setting: Setting, seed: int) -> list[str]:
    """Each bundle of a random program is accepted, and the check finds no failure there."""
    source = Program(seed).text()
    verdicts = setting.check(source.encode())
    faults = []
    with tempfile.NamedTemporaryFile(suffix=".c") as file:
        file.write(source.encode())
        file.flush()
        for number, line in enumerate(verdicts, 1):
            place, _, verdict = line.partition(": ")
            found = setting.bridge(Path(file.name), number, 3.0)
            if found.returncode not in (0, 1, 2):
                faults.append(found.stderr.decode("utf-8", "replace"))
            elif found.returncode == 0:
                answer = setting.recheck(found.stdout)
                if answer != f"accepted {place}\n" or verdict.startswith("found"):
                    faults.append(f"seed {seed}, {line}: recheck says {answer!r}")
    return faults


def cases(setting: Setting) -> Iterator[Case]:
    """All cases."""
    for seed in range(8 * PROGRAMS if setting.all else PROGRAMS):
        yield Case(f"random {seed}", honest, (seed,))
