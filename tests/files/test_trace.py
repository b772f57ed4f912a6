"""The run that is told: its end is that of the proved `replay`, for many programs, and its steps are what happened."""
import subprocess
import unittest

from programs import inputs_of, program_of
from setting import PROGRAM, Case, dedented

from files.compiler import load
from files.processes import Processes
from files.program import Program
from files.recorder import Recorder
from files.reports import list_text
from files.results import Step
from files.trace import shortened, trace

PROGRAMS, FUEL = 3_000, 3_000


def replayed(text: str, inputs: tuple[int, ...], fuel: int) -> str:
    """What the program says of a run."""
    words = [PROGRAM, "replay", "--fuel", str(fuel), list_text(inputs)]
    return subprocess.run(words, input=text.encode("latin-1"), capture_output=True).stdout.decode().strip()


def steps_of(text: str, *inputs: int, is_whole: bool = False) -> list[str]:
    """The steps of a failing run, with their lines."""
    steps, fault = trace(Program(PROGRAM, Processes()), text.encode("latin-1"), inputs, is_whole, 60)
    return [f"{it.place[0]}: {it.text}" + (f" ({it.input})" if it.input else "") for it in steps] or [fault]


class Ends(Case):
    """Ends of runs."""

    def test_random_programs(self) -> None:
        """3,000 random programs end on random lists as the program's replay does, with and without a watcher"""
        program = Program(PROGRAM, Processes())
        ends: dict[str, int] = {}
        for seed in range(PROGRAMS):
            text, inputs = program_of(seed), inputs_of(seed)
            told = replayed(text, inputs, FUEL)
            end = told.split(" ")[0].rstrip(",")
            ends[end] = ends.get(end, 0) + 1
            recorder = Recorder(text)
            machine = load(text, recorder)
            recorder.machine = machine
            with self.subTest(seed=seed):
                self.assertEqual(load(text).run(inputs, FUEL).line(), told)
                self.assertEqual(machine.run(inputs, FUEL).line(), told)
                self.assertFalse(recorder.events and max(max(it.needs, default=-1) - at for at, it in enumerate(recorder.events)) >= 0)
                if end == "failed":
                    steps, fault = trace(program, text.encode("latin-1"), inputs, False, 60)
                    self.assertEqual(fault, "")
                    self.assertIn("%d:%d," % steps[-1].place, told)
        self.assertEqual(set(ends), {"returned", "failed", "stopped", "starved", "fuel"})

    def test_fuel(self) -> None:
        """each number of steps ends a run as the program's replay says"""
        text, inputs = program_of(11), inputs_of(11)
        seen = set()
        for fuel in range(1, 120):
            told = replayed(text, inputs, fuel)
            seen.add(told.split(" ")[0])
            self.assertEqual(load(text).run(inputs, fuel).line(), told)
        self.assertGreater(len(seen), 1)

    def test_quotients(self) -> None:
        """quotients and remainders at the ends of the range, and of either sign, are those of the replay"""
        text = "int main() { int x = input(); int a = x / -3; int b = x % -3; int c = x / 7; int d = x % 7;\n"
        text += "return (x / -1) + a + b + c + d; }\n"
        for value in (-2**63, -2**63 + 1, -8, -7, -1, 0, 1, 8, 2**63 - 1):
            self.assertEqual(load(text).run((value,), FUEL).line(), replayed(text, (value,), FUEL))

    def test_operators(self) -> None:
        """each operator gives what it gives in the replay"""
        whole = [f"(a {it} b)" for it in ("+", "-", "<", "<=", ">", ">=", "==", "!=", "&&", "||")]
        whole += ["(a * 3)", "(-2 * b)", "(!a)", "(!!b)", "(- a)", "(+ b)", "(a / 3)", "(b % 4)", "(a && input())", "(b || input())"]
        for expression in whole:
            text = f"int main() {{ int a = input(); int b = input(); return {expression}; }}\n"
            for inputs in ((0, 0, 5), (0, 3, 5), (3, 0, 5), (-4, 3, 5), (7, 7, 0)):
                self.assertEqual(load(text).run(inputs, FUEL).line(), replayed(text, inputs, FUEL), expression)

    def test_deep_recursion(self) -> None:
        """a failure 20,000 calls deep is told"""
        text = "int f(int n) { if (n == 0) { assert(n != 0); } return f(n - 1); }\nint main() { return f(input()); }\n"
        steps, fault = trace(Program(PROGRAM, Processes()), text.encode(), (20_000,), False, 60)
        self.assertEqual((fault, steps[-1].place), ("", (1, 30)))

    def test_longer_than_the_replay(self) -> None:
        """a run that the replay doesn't end has no trace, and that is said"""
        text = "int main() { int i = 0; while (i < 400000) { i++; } assert(i == 0); }\n"
        self.assertEqual(steps_of(text), ["no trace: the program's replay says 'fuel 1000000 spent'"])


class Difference(Case):
    """Where the interpreter and the replay differ."""

    def test_no_trace(self) -> None:
        """where the interpreter ends otherwise than the replay, the difference is told, and no trace"""
        text = "int main() { int x = input(); assert(x == 1); }\n"
        table = {"check": {"output": "1:31: found [2]\nsummary: 0 proved, 1 found, 0 unknown\n", "status": 1},
                 "replay": {"output": "failed 1:30, inputs used 1\n", "status": 1}}
        lines, status = self.lines([self.file("a.c", text)], self.stand_in(table))
        self.assertEqual(lines[-2:], [
            "  no trace: the interpreter says 'failed 1:31, inputs used 1', and the program's replay 'failed 1:30, inputs used 1'",
            "1 file: 0 proved, 1 can fail, 0 not settled"])
        self.assertEqual(status, 1)


class Steps(Case):
    """What a trace has."""

    def test_inputs_branches_values(self) -> None:
        """a trace has the inputs, and the branches and the values that matter"""
        text = dedented("""
            int balance;
            int fee;
            int withdraw(int amount) {
              if (amount > balance) return 0;
              balance -= amount + 2;
              return 1;
            }
            int main() {
              int idle = 7;
              fee = input();
              balance = input() + 1;
              if (idle > 3) idle = 4;
              withdraw(input());
              assert(balance >= 0);
            }
        """)
        self.assertEqual(steps_of(text, 9, 4, 5), [
            "10: fee = 9 (1)", "11: input 2 is 4 (2)", "11: balance = 5", "13: input 3 is 5 (3)", "13: withdraw(amount = 5)",
            "4: amount > balance is false", "5: balance = -2", "14: balance >= 0 is false, where balance = -2"])

    def test_all_steps(self) -> None:
        """with --trace all steps are told, also those that don't matter"""
        text = "int main() {\n  int idle = 7;\n  idle++;\n  int x = input();\n  assert(x);\n}\n"
        self.assertEqual(steps_of(text, 0), ["4: x = 0 (1)", "5: x is false, where x = 0"])
        self.assertEqual(steps_of(text, 0, is_whole=True), ["2: idle = 7", "3: idle = 8", "4: x = 0 (1)", "5: x is false, where x = 0"])

    def test_results_of_calls(self) -> None:
        """what a call gives belongs to the step that it stands in, and hidden names are told apart"""
        text = dedented("""
            int g = 5;
            int pick(int a, int b) { if (a > b) return a; return b; }
            int main() {
              int g = pick(input(), 2) - pick(1, input());
              { int g = 9; }
              assert(g != 1);
            }
        """)
        self.assertEqual(steps_of(text, 4, 3), [
            "4: input 1 is 4 (1)", "4: pick(a = 4, b = 2)", "2: a > b is true", "2: pick gives 4", "4: input 2 is 3 (2)",
            "4: pick(a = 1, b = 3)", "2: a > b is false", "2: pick gives 3", "4: g = 1", "6: g != 1 is false, where g = 1"])

    def test_at_most_twenty_lines(self) -> None:
        """a trace has at most 20 lines, one of which says how many steps are left out"""
        steps = [Step((at, 1), "") for at in range(50)]
        for count in range(50):
            first, left_out, last = shortened(steps[:count])
            self.assertLessEqual(len(first) + len(last) + (left_out > 0), 20)
            self.assertEqual(len(first) + left_out + len(last), count)
            self.assertEqual(first + steps[len(first): count - len(last)] + last, steps[:count])


if __name__ == "__main__":
    unittest.main()
