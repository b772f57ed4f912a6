"""The stages: which are asked, what is taken from each, and what a limit or a signal leaves."""
import json
import os
import shutil
import signal
import subprocess
import sys
import time
import unittest

from setting import COMMAND, GRAPHS, TOP, Case, report

# What the sleeping children of stand-ins sleep, so that those of this run are told apart from all else.
MARK = f"86400.{os.getpid()}"
SOURCE = "int main() {\n  int x = input();\n  assert(x != 41);\n  assert(x != 12345678);\n  assert(x == x);\n}\n"
FIRST, SWEEP, SECOND = "check --workers 1 --budget 2000", "sweep --edges 5000", "check --workers 1 --budget 20000"
OPEN = ("3:3: unknown (budget 2000 spent)", "4:3: unknown (budget 2000 spent)", "5:3: unknown (solver limit: rows)")


def sleeping() -> list[str]:
    """The processes that sleep as the stand-ins' children do."""
    found = []
    for pid in filter(str.isdigit, os.listdir("/proc")):
        try:
            with open(f"/proc/{pid}/cmdline", "rb") as file:
                if MARK.encode() in file.read().split(b"\0"):
                    found.append(pid)
        except OSError:
            pass
    return found


def heeded() -> None:
    """Signals end a process, also where these tests run in the background of a shell that has it ignore them."""
    for number in (signal.SIGINT, signal.SIGTERM, signal.SIGHUP):
        signal.signal(number, signal.SIG_DFL)


class Stages(Case):
    """What is asked, and what is taken."""

    def test_order(self) -> None:
        """the stages come in order, each only while something is open, and each settles what the ones before didn't"""
        program = self.stand_in({
            FIRST: report(*OPEN), SWEEP: report("3:3: unknown (sweep 5000 spent)", "4:3: unknown (sweep 5000 spent)", "5:3: proved"),
            SECOND: report("3:3: unknown (budget 20000 spent)", "4:3: found [12345678]", "5:3: unknown (budget 20000 spent)"),
            "replay --fuel 1000000 [41]": {"output": "failed 3:3, inputs used 1\n", "status": 1},
            "replay": {"output": "returned 0, inputs used 1\n"}})
        held = self.json([self.file("a.c", SOURCE)], program)["files"][0]["assertions"]
        self.assertEqual([(it["state"], it["by"]) for it in held], [
            ("can fail", "replay, 1000 lists"), ("can fail", "check 20000"), ("proved", "sweep 5000")])
        self.assertEqual([it.get("inputs") for it in held], [[41], [12345678], None])
        stages = [words for words, _ in self.asked() if not words.startswith("replay")]
        self.assertEqual(stages, [FIRST, SWEEP, SECOND])

    def test_nothing_open(self) -> None:
        """where the first stage settles all, no other one is asked"""
        program = self.stand_in({"check": report("3:3: proved", "4:3: proved", "5:3: proved")})
        self.assertEqual(self.json([self.file("a.c", SOURCE)], program)["status"], 0)
        self.assertEqual([words for words, _ in self.asked()], [FIRST])

    def test_quick(self) -> None:
        """--quick is the first stage alone"""
        program = self.stand_in({"check": report(*OPEN), "sweep": report(*OPEN)})
        self.assertEqual(self.json([self.file("a.c", SOURCE), "--quick"], program)["status"], 2)
        self.assertEqual([words for words, _ in self.asked()], [FIRST])

    def test_lists_are_confirmed(self) -> None:
        """a list that the program's replay doesn't fail on at that place, using all of it, isn't told"""
        name = self.file("a.c", SOURCE)
        for line, status in (("failed 5:3, inputs used 1", 1), ("failed 3:3, inputs used 2", 1), ("returned 0, inputs used 1", 0),
                             ("failed 3:3, inputs used 1", 0), ("failed 3:3, inputs used 1 ", 1), ("", 1)):
            program = self.stand_in({"check": report(*OPEN), "sweep": report(*OPEN), "replay": {"output": line + "\n", "status": status}})
            held = self.json([name], program)["files"][0]["assertions"]
            self.assertEqual([it["state"] for it in held], ["not settled"] * 3, line)
            self.assertIn("1000 lists", held[0]["reasons"])

    def test_contradiction(self) -> None:
        """two stages that contradict each other settle nothing, and that is said"""
        program = self.stand_in({
            FIRST: report("3:3: proved", *OPEN[1:]), SWEEP: report("3:3: found [41]", *OPEN[1:]), "check": report(*OPEN)})
        held = self.json([self.file("a.c", SOURCE)], program)["files"][0]
        self.assertEqual(held["fault"], "sweep 5000 says found of 3:3, and check 2000 says proved")
        self.assertEqual([it["state"] for it in held["assertions"]], ["not settled"] * 3)

    def test_other_places(self) -> None:
        """a stage whose lines are of other assertions settles nothing"""
        program = self.stand_in({FIRST: report(*OPEN), SWEEP: report("3:3: proved"), "check": report(*OPEN)})
        held = self.json([self.file("a.c", SOURCE)], program)["files"][0]
        self.assertEqual(held["fault"], "sweep 5000 has other lines than check 2000")
        self.assertEqual([it["state"] for it in held["assertions"]], ["not settled"] * 3)

    def test_one_reading(self) -> None:
        """every stage gets the bytes that were read first, also where the file changes meanwhile"""
        name = self.file("a.c", SOURCE)
        program = self.stand_in({"check": report(*OPEN) | {"sleep": 0.4}, "sweep": report(*OPEN)})
        child = subprocess.Popen([sys.executable, COMMAND, "--program", program, "--engine", "none", name], stdout=subprocess.DEVNULL)
        while not os.path.exists(os.path.join(self.room, "stand-in", "asked")):
            time.sleep(0.02)
        self.file("a.c", "int main() { assert(1); }\n")
        child.wait()
        self.assertEqual({source for _, source in self.asked()}, {SOURCE})


class Alone(Case):
    """A test that leaves no sleeping child behind, not even where what is tested does."""

    def setUp(self) -> None:
        super().setUp()
        self.addCleanup(self.wake)

    def wake(self) -> None:
        """Ends the sleeping children of this run."""
        for it in sleeping():
            os.kill(int(it), signal.SIGKILL)


class Limits(Alone):
    """What a limit leaves."""

    def test_limit(self) -> None:
        """a stage that is stopped leaves what was settled before, says so, and leaves no child behind"""
        limit = f"{self.patience():g}"
        for deaf in (False, True):
            program = self.stand_in({
                FIRST: report("3:3: found [41]", *OPEN[1:]), SWEEP: report(*OPEN[:2], "5:3: proved"),
                SECOND: report("3:3: found [41]", "4:3: proved", "5:3: proved") | {"sleep": 3600, "child": MARK, "deaf": deaf},
                "replay": {"output": "returned 0, inputs used 0\n"}})
            name = self.file("a.c", SOURCE)
            lines, status = self.lines([name, "--stage-time", limit, "--time", "3600", "--verbose"], program)
            told = [it for it in lines if it.startswith(name)]
            self.assertEqual((status, len(told)), (1, 3))
            self.assertEqual(told[0], f"{name}:3:3: error: assertion can fail on input 41")
            self.assertTrue(told[1].startswith(f"{name}:4:3: warning: not settled: {limit} s in check 20000, "), told[1])
            self.assertEqual(told[2], f"{name}:5:3: note: proved by sweep 5000")
            self.assertEqual(sleeping(), [])

    def test_first_stage(self) -> None:
        """where the first stage is stopped, a budget of 1 says which assertions there are"""
        limit = f"{self.patience():g}"
        program = self.stand_in({FIRST: report(*OPEN) | {"sleep": 3600, "child": MARK}, "check": report(*OPEN)})
        lines, status = self.lines([self.file("a.c", SOURCE), "--quick", "--stage-time", limit, "--time", "3600"], program)
        self.assertEqual([it.split(": warning: ")[1] for it in lines[:-1]], [f"not settled: {limit} s in check 2000"] * 3)
        self.assertEqual((lines[-1], status, sleeping()), ("1 file: 0 proved, 0 can fail, 3 not settled", 2, []))

    def test_all_late(self) -> None:
        """a program that never answers leaves a file that isn't settled"""
        program = self.stand_in({"check": {"sleep": 3600}})
        lines, status = self.lines([self.file("a.c", SOURCE), "--stage-time", "0.5"], program)
        self.assertTrue(lines[0].endswith("a.c: warning: not settled: 0.5 s in check 1"), lines)
        self.assertEqual(status, 2)

    def test_time_of_a_file(self) -> None:
        """the limit of a file bounds all of its stages together"""
        limit = self.patience() * 2
        program = self.stand_in({FIRST: report(*OPEN), "sweep": {"sleep": 3600}, "check": {"sleep": 3600}, "replay": {"sleep": 3600}})
        begun = time.monotonic()
        lines, status = self.lines([self.file("a.c", SOURCE), "--time", f"{limit:g}", "--stage-time", "50"], program)
        self.assertLess(time.monotonic() - begun, 600)
        self.assertEqual((status, lines[-1]), (2, "1 file: 0 proved, 0 can fail, 3 not settled"))

    def test_children_that_stay(self) -> None:
        """a child that a stage leaves behind at its ordinary end is killed too"""
        program = self.stand_in({"check": report("3:3: proved", "4:3: proved", "5:3: proved") | {"child": MARK}})
        self.assertEqual(self.lines([self.file("a.c", SOURCE)], program)[1], 0)
        self.assertEqual(sleeping(), [])


class Signals(Alone):
    """What a signal leaves."""

    def test_signals(self) -> None:
        """a signal ends the command with its status, kills what runs, and prints no verdict that wasn't there"""
        names = [self.file("first.c", "first"), *(self.file(f"{at}.c", SOURCE) for at in range(6))]
        program = self.stand_in({
            FIRST + "|first": report("1:1: proved"), "check": report("3:3: proved", "4:3: proved", "5:3: proved") | {
                "sleep": 3600, "child": MARK}})
        for number in (signal.SIGINT, signal.SIGTERM, signal.SIGHUP):
            words = [sys.executable, COMMAND, "--program", program, "--engine", "none", "-j", "3", "--verbose", *names]
            child = subprocess.Popen(words, stdout=subprocess.PIPE, stderr=subprocess.PIPE, start_new_session=True,
                                     preexec_fn=heeded)
            while len(sleeping()) < 3:
                time.sleep(0.05)
            child.send_signal(number)
            output, errors = child.communicate(timeout=60)
            self.assertEqual(child.returncode, 128 + number)
            self.assertEqual(errors, b"")
            self.assertEqual(output.decode(), f"{names[0]}:1:1: note: proved by check 2000\n")
            self.assertEqual(sleeping(), [])


class EngineStage(Alone):
    """The stage from the outside, with a stand-in for it."""

    def copy(self, script: str) -> str:
        """A copy of `smash-files` with a stand-in for the folder `outside/`, and a folder with a `z3`."""
        top = os.path.join(self.room, "copy")
        shutil.copytree(os.path.join(os.path.dirname(COMMAND), "files"), os.path.join(top, "files"), dirs_exist_ok=True)
        shutil.copy(COMMAND, top)
        self.file("copy/outside/__init__.py", "")
        self.file("copy/outside/__main__.py", script)
        z3 = self.file("bin/z3", "#!/bin/sh\nexit 0\n")
        os.chmod(z3, 0o755)
        return top

    def states(self, script: str, recheck: dict[str, object], words: tuple[str, ...] = ()) -> list[tuple[str, str]]:
        """What is known of each assertion with such an engine and such a `recheck`, and by what or why."""
        top = self.copy(script)
        program = self.stand_in({"check": report(*OPEN), "sweep": report(*OPEN), "recheck": recheck,
                                 "replay": {"output": "starved, inputs used 0\n", "status": 2}})
        path = os.path.join(self.room, "bin") + os.pathsep + os.environ["PATH"]
        done = subprocess.run(
            [sys.executable, os.path.join(top, "smash-files"), "--program", program, "--format", "json", *words, self.file("a.c", SOURCE)],
            capture_output=True, env=os.environ | {"PATH": path})
        self.assertEqual(done.stderr.decode(), "")
        held = json.loads(done.stdout)["files"][0]["assertions"]
        return [(it["state"], it.get("by") or it["reasons"][-1]) for it in held]

    BUNDLE = ("import sys\nsource = open(sys.argv[-1], 'rb').read()\nnumber = sys.argv[1]\n"
              "out = b'smash-bundle 1\\nsource %d\\n%s\\nassert %s\\n' % (len(source), source, number.encode())\n")

    def test_accepted(self) -> None:
        """what `recheck` accepts of this text and this assertion is proved, and nothing else"""
        script = self.BUNDLE + "sys.stdout.buffer.write(out)\n"
        recheck: dict[str, object] = {"output": "accepted 4:3\n"}
        proved, rejected = ("proved", "recheck, z3"), ("not settled", "z3's proof isn't accepted")
        self.assertEqual(self.states(script, recheck), [rejected, proved, rejected])
        self.assertEqual(self.states(script, recheck, ("--engine", "none"))[1][0], "not settled")
        for line, status in (("accepted 4:3", 2), ("rejected claim 0", 2), ("accepted 4:3\naccepted 4:3", 0), ("accepted 4:4", 0),
                             ("accepted 4:3 ", 0)):
            self.assertEqual(self.states(script, {"output": line + "\n", "status": status}), [rejected] * 3, line)

    def test_of_another_text(self) -> None:
        """a proof of another text or another assertion isn't taken, whatever `recheck` says of it"""
        for change in ("out = out.replace(b'41', b'42')\n", "out = out.replace(b'assert 2\\n', b'assert 3\\n')\n", "out = out[1:]\n"):
            script = self.BUNDLE + change + "sys.stdout.buffer.write(out)\n"
            self.assertEqual(self.states(script, {"output": "accepted 4:3\n"})[1], ("not settled", "z3's proof isn't accepted"), change)

    def test_statuses(self) -> None:
        """an engine that gives up, refuses or says that a run gets there settles nothing"""
        for status, reason in ((1, "z3 says that some run gets there"), (2, "z3 gave up"), (3, "z3 refused the source"), (7, "z3 failed")):
            script = self.BUNDLE + f"sys.stdout.buffer.write(out)\nsys.stdout.flush()\nsys.exit({status})\n"
            self.assertEqual(self.states(script, {"output": "accepted 4:3\n"}), [("not settled", reason)] * 3)

    def test_limit(self) -> None:
        """an engine that is stopped leaves none of its children"""
        script = f"import subprocess, time\nsubprocess.Popen(['sleep', '{MARK}'])\ntime.sleep(3600)\n"
        limit = f"{self.patience():g}"
        states = self.states(script, {}, ("--time", "3600", "--stage-time", limit))
        self.assertEqual(states, [("not settled", f"{limit} s in z3")] * 3)
        self.assertEqual(sleeping(), [])

    @unittest.skipUnless(GRAPHS and shutil.which("z3") and os.path.isdir(os.path.join(TOP, "outside")), "there is no engine")
    def test_engine(self) -> None:
        """the engine that is installed proves what the program alone doesn't, and its proof is kept and rechecked"""
        with open(os.path.join(TOP, "examples", "wide.c"), encoding="utf-8") as file:
            name = self.file("a.c", file.read())
        words = ["--time", "600", "--stage-time", "20", "--engine", "z3", "--graphs", GRAPHS]
        lines, status = self.lines([name, "--verbose", "--bundle", "kept", *words])
        self.assertEqual((lines[0].split(", kept")[0], status), (f"{name}:6:5: note: proved by recheck, z3", 0))
        self.assertEqual(self.lines(["--recheck", "kept"]), (["1 file: 1 proved, 0 can fail, 0 not settled"], 0))

    def test_not_there(self) -> None:
        """an engine that is asked for and isn't there is told, with status 70"""
        done = subprocess.run([sys.executable, COMMAND, "--program", self.stand_in({}), "--engine", "z3", "a.c"], capture_output=True,
                              env=os.environ | {"PATH": self.room})
        self.assertEqual((done.returncode, done.stdout), (70, b""))
        self.assertIn(b"z3", done.stderr)


if __name__ == "__main__":
    unittest.main()
