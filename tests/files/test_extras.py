"""Reach, baselines, reproducers and proofs that are kept."""
import os
import re
import shutil
import subprocess
import unittest
from pathlib import Path

from programs import inputs_of, program_of
from setting import PROGRAM, Case, dedented, report

from files.compiler import load
from files.repro import reproducer
from files.reports import list_text
from files.source import assertions_of, with_failing


class Reach(Case):
    """What no run gets to."""

    def test_reach(self) -> None:
        """what is proved because no run gets there is a warning, and what a run gets to isn't"""
        text = dedented("""
            void f() { assert(1); }
            int main() {
              int x = input();
              assume(x > 5);
              assert(x > 4);
              if (x < 3) { assert(x ==
                9); }
              return x;
            }
        """)
        name = self.file("a.c", text)
        self.assertEqual(self.lines([name, "--reach"]), ([
            f"{name}:1:12: warning: proved, but no run gets here", f"{name}:6:16: warning: proved, but no run gets here",
            "1 file: 3 proved, 0 can fail, 0 not settled, 2 not reached"], 0))

    def test_unknown(self) -> None:
        """what the program doesn't prove of the source with assert(0) isn't told, nor where it is stopped or refuses"""
        name, text = "a.c", "int main() { assert(input() != 3 || 1); }\n"
        self.file(name, text)
        for row in (report("1:14: unknown (budget 2000 spent)"), report("1:14: found [3]"), report("1:15: proved"), {"status": 7},
                    {"output": "refused 1:1: bad byte\n", "status": 3}):
            program = self.stand_in({f"check --workers 1 --budget 2000|{text}": report("1:14: proved"), "check": row})
            self.assertEqual(self.lines([name, "--reach"], program), (["1 file: 1 proved, 0 can fail, 0 not settled"], 0))

    def test_same_places(self) -> None:
        """the source that is asked has each byte but the condition's in its place"""
        text = b"int main() {\n  assert((1 +\n 2) == f(3)) ; /* ) */ assert(0);\n}\n"
        known = assertions_of(text)
        self.assertEqual([(it.text, place) for place, it in known.items()], [("(1 + 2) == f(3)", (2, 3)), ("0", (3, 24))])
        turned = with_failing(text, known[2, 3])
        self.assertEqual(turned, b"int main() {\n  assert(0   \n           ) ; /* ) */ assert(0);\n}\n")


class Baseline(Case):
    """What is known."""

    TEXT = "int main() {\n  assert(input() != 3);\n  assert(input() != 4);\n}\n"

    def table(self, first: str, second: str, shift: int = 0) -> dict[str, dict[str, object]]:
        """A table with two verdicts."""
        verdicts = [f"{line + shift}:3: {it}" for line, it in ((2, first), (3, second))]
        return {"check": report(*verdicts), "replay": {"output": "starved, inputs used 0\n", "status": 2}}

    def status(self, text: str, first: str, second: str, shift: int = 0, words: tuple[str, ...] = ()) -> tuple[int, str]:
        """The status and the last line with a baseline."""
        name = self.file("a.c", text)
        lines, status = self.lines([os.path.relpath(name, self.room), "--quick", "--baseline", "known", *words],
                                   self.stand_in(self.table(first, second, shift)))
        return status, lines[-1].split(": ")[1]

    def test_baseline(self) -> None:
        """what is known isn't told and doesn't count, also where lines moved; what is new does"""
        text, unknown, found = self.TEXT, "unknown (budget 2000 spent)", "found [3]"
        kept = self.status(text, unknown, "proved", words=("--update-baseline",))
        self.assertEqual(kept, (0, "1 proved, 0 can fail, 0 not settled, 1 known"))
        self.assertEqual(self.status(text, unknown, "proved"), (0, "1 proved, 0 can fail, 0 not settled, 1 known"))
        self.assertEqual(self.status("\n" + text, unknown, "proved", shift=1)[0], 0)
        self.assertEqual(self.status(text, unknown, unknown), (2, "0 proved, 0 can fail, 1 not settled, 1 known"))
        self.assertEqual(self.status(text, found, "proved"), (1, "1 proved, 1 can fail, 0 not settled"))
        self.assertEqual(self.status(text.replace("!= 3", "> 3"), unknown, "proved")[0], 2)
        self.assertEqual(self.status(text.replace("main", "other"), unknown, "proved")[0], 2)
        self.status(text, found, unknown, words=("--update-baseline",))
        self.assertEqual(self.status(text, unknown, unknown), (0, "0 proved, 0 can fail, 0 not settled, 2 known"))
        self.assertEqual(self.status(text, found, found)[0], 1)

    def test_twice_the_same(self) -> None:
        """one of two equal assertions that is known leaves the other one new"""
        text, unknown = self.TEXT.replace("!= 4", "!= 3"), "unknown (budget 2000 spent)"
        self.status(text, unknown, "proved", words=("--update-baseline",))
        self.assertEqual(self.status(text, unknown, unknown), (2, "0 proved, 0 can fail, 1 not settled, 1 known"))

    def test_no_baseline(self) -> None:
        """a file that is no baseline is told, with status 4, and stays as it is"""
        for text in ("", "[]", '{"version": 2, "open": []}', '{"version": 1, "open": [{}]}', '{"version": 1}', "none"):
            path = self.file("known", text)
            if text == "none":
                os.unlink(path)
            done = self.run_command(["--baseline", "known", self.file("a.c", self.TEXT)], self.stand_in(self.table("proved", "proved")))
            self.assertEqual((done.returncode, done.stdout), (4, b""), text)

    def test_verbose_and_sarif(self) -> None:
        """what is known is told with --verbose, and SARIF says which is new"""
        import json
        unknown = "unknown (budget 2000 spent)"
        self.status(self.TEXT, unknown, "proved", words=("--update-baseline",))
        program = self.stand_in(self.table(unknown, "found [1, 4]"))
        words = ["a.c", "--quick", "--baseline", "known"]
        lines, _ = self.lines([*words, "--verbose"], program)
        self.assertEqual(lines[0], "a.c:2:3: note: known: not settled: budget 2000 spent")
        log = json.loads(self.run_command([*words, "--format", "sarif"], program).stdout)
        self.assertEqual([it["baselineState"] for it in log["runs"][0]["results"]], ["unchanged", "new"])


@unittest.skipUnless(shutil.which("gcc"), "there is no gcc")
class Reproducers(Case):
    """C files that fail under gcc."""

    def fails(self, name: str, text: bytes, place: tuple[int, int], inputs: tuple[int, ...]) -> str:
        """Builds and runs a C file; where its assertion failed."""
        path = self.file("r.c", reproducer(name, text, place, inputs))
        built = subprocess.run(["gcc", "-std=gnu11", "-w", "-o", path + ".out", path], capture_output=True, text=True)
        self.assertEqual((built.returncode, built.stderr), (0, ""))
        ran = subprocess.run([path + ".out"], capture_output=True, text=True, timeout=600)
        self.assertEqual(ran.returncode, -6, ran.stderr)
        return ran.stderr

    def test_command(self) -> None:
        """--repro writes a C file that gcc compiles and that fails at that line of the source"""
        text = dedented("""
            #include <assert.h>
            #include "no/such/file.h"
            int input(void);
            void assume(int);
            extern int twice(int);
            int left, main = 1;
            int main() {
              long first = input() - input(); int x = first;
              int assumed = 3000000000 + 2000000000;
              assume(assumed > 0);
              { int x = x + 1; left = x; }
              if (pair(input(), input()) == 1) assert(twice(left) != 2 * x + 2);
            }
            int twice(int n) { return 2 * n; }
            int pair(int a, int b) { if (a < b) return 1; }
        """)
        name = self.file('sub/"q" é.c', text)
        done = self.run_command(["--repro", "r.c", name])
        self.assertEqual((done.returncode, done.stderr), (1, b""))
        subprocess.run(["gcc", "-std=gnu11", "-w", "-o", "r", "r.c"], cwd=self.room, check=True)
        ran = subprocess.run(["./r"], cwd=self.room, capture_output=True)
        self.assertEqual(ran.returncode, -6)
        self.assertIn(os.fsencode(name) + b":12: ", ran.stderr)

    def test_nothing_fails(self) -> None:
        """where nothing can fail, no file is written, and that is said"""
        done = self.run_command(["--repro", "r.c", self.file("a.c", "int main() { assert(1); }\n")])
        self.assertEqual((done.returncode, os.path.exists(os.path.join(self.room, "r.c"))), (0, False))
        self.assertIn(b"nothing to reproduce", done.stderr)

    def test_random_programs(self) -> None:
        """the failing runs of random programs fail at the same line under gcc"""
        failed = 0
        for seed in range(6_000):
            text, inputs = program_of(seed), inputs_of(seed)
            outcome = load(text).run(inputs, 3_000)
            if outcome.how != "failed" or outcome.place is None:
                continue
            used = inputs[: outcome.used]
            words = [PROGRAM, "replay", list_text(used)]
            told = subprocess.run(words, input=text.encode("latin-1"), capture_output=True).stdout.decode()
            self.assertEqual(told, "failed %d:%d, inputs used %d\n" % (*outcome.place, len(used)))
            with self.subTest(seed=seed):
                self.assertIn(f"source.c:{outcome.place[0]}: ", self.fails("source.c", text.encode("latin-1"), outcome.place, used))
            failed += 1
            if failed == 60:
                break
        self.assertEqual(failed, 60)


class Proofs(Case):
    """Proofs that are kept."""

    TEXT = "int main() {\n  int x = input();\n  assume(x > 2);\n  assert(x > 1);\n  assert(x != 2);\n  assert(x != 77);\n}\n"

    def kept(self) -> list[str]:
        """The files of the folder."""
        return sorted(os.listdir(os.path.join(self.room, "kept")))

    def test_keep_and_recheck(self) -> None:
        """a proof is kept for each proved assertion, and holds as long as the file has these bytes"""
        self.file("sub/a b.c", self.TEXT)
        self.assertEqual(self.lines(["--bundle", "kept", "sub/a b.c"])[1], 1)
        self.assertEqual(self.kept(), ["sub%2Fa%20b.c.1.bundle", "sub%2Fa%20b.c.2.bundle"])
        self.assertEqual(self.lines(["--recheck", "kept", "--verbose"]), ([
            "sub/a b.c:4:3: note: proved by recheck, kept as kept/sub%2Fa%20b.c.1.bundle",
            "sub/a b.c:5:3: note: proved by recheck, kept as kept/sub%2Fa%20b.c.2.bundle",
            "sub/a b.c:6:3: warning: not settled: no proof of it is kept", "1 file: 2 proved, 0 can fail, 1 not settled"], 2))
        self.file("sub/a b.c", self.TEXT + "\n")
        lines, _ = self.lines(["--recheck", "kept"])
        self.assertEqual([it.split("settled: ")[-1] for it in lines[:2]], ["the proof that is kept is of another text"] * 2)

    def test_wrong_proofs(self) -> None:
        """a proof that is changed, exchanged or cut isn't taken"""
        self.file("a.c", self.TEXT)
        self.lines(["--bundle", "kept", "a.c"])
        first, second = Path(self.room, "kept/a.c.1.bundle"), Path(self.room, "kept/a.c.2.bundle")
        good, other = first.read_bytes(), second.read_bytes()
        changed = re.sub(rb"\nassert 1\n", b"\nassert 3\n", good)
        rows = [(other, "kept/a.c.1.bundle is of another assertion"), (b"", "kept/a.c.1.bundle is no proof"), (good[:-3], "rejected"),
                (changed, "kept/a.c.1.bundle is of another assertion"), (good.replace(b"split", b"spilt", 1), "rejected"),
                (good.replace(b"x > 1", b"x > 3"), "the proof that is kept is of another text")]
        for content, reason in rows:
            first.write_bytes(content)
            lines, _ = self.lines(["--recheck", "kept"])
            self.assertIn(reason, lines[0])
            self.assertTrue(lines[0].startswith("a.c:4:3: warning: not settled: "))
        Path(self.room, "kept/a.c.3.bundle").write_bytes(changed)
        self.assertIn("a.c:6:3: warning: not settled: the proof that is kept is rejected", self.lines(["--recheck", "kept"])[0])
        first.write_bytes(good)
        self.assertIn("1 file: 2 proved, 0 can fail, 1 not settled", self.lines(["--recheck", "kept"])[0])

    def test_not_kept(self) -> None:
        """an assertion that is proved by a stage without a proof is told, and its verdict stands"""
        program = self.stand_in({"check": report("4:3: proved", "5:3: proved", "6:3: proved"),
                                 "bundle": {"output": "4:3: unknown (budget 20000 spent)\n", "status": 2}})
        lines, status = self.lines(["--bundle", "kept", self.file("a.c", self.TEXT)], program)
        self.assertEqual(status, 0)
        self.assertIn("warning: 4:3: proved by check 2000, and no proof of it could be kept", lines[0])
        self.assertEqual(self.kept(), [])


if __name__ == "__main__":
    unittest.main()
