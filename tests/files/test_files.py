"""Words, files and names: many files, the same bytes for every `-j`, statuses, the terminal."""
import os
import pty
import select
import subprocess
import sys
import unittest

from setting import COMMAND, TOP, Case, report

GOOD = "int main() { assert(1 + 1 == 2); }\n"
BAD = "int main() { assert(input() != 4); }\n"
OLD = "int main() { return a[1]; }\n"


def by_text(*texts: str) -> dict[str, dict[str, object]]:
    """A table for these sources, by their letters."""
    rows = {GOOD: report("1:14: proved"), BAD: report("1:14: found [4]"), OLD: {"output": "refused 1:22: bad byte\n", "status": 3}}
    table = {f"check --workers 1 --budget 2000|{it}": rows[it] for it in texts}
    return table | {"replay": {"output": "failed 1:14, inputs used 1\n", "status": 1}}


class Names(Case):
    """Files and their names."""

    def test_two_hundred_files(self) -> None:
        """200 files, some of them unreadable or refused, give the same bytes for every -j"""
        for at in range(200):
            self.file(f"many/{at % 7}/{at}.c", (GOOD, BAD, OLD)[at % 3] if at % 50 else GOOD)
        os.symlink("nowhere", os.path.join(self.room, "many", "lost.c"))
        for form, workers in (("gcc", ("1", "4")), ("json", ("1", "4")), ("sarif", ("2", "4"))):
            words = ["many", "none.c", "many/1", "--verbose", "--quick", "--stage-time", "300", "--time", "1000", "--format", form]
            runs = [self.run_command([*words, "-j", it]) for it in workers]
            self.assertEqual({(it.stdout, it.stderr, it.returncode) for it in runs}, {(runs[0].stdout, b"", 3)})
            self.assertGreater(len(runs[0].stdout), 10_000)

    def test_strange_names(self) -> None:
        """names with blanks, quotes, line feeds, dashes and other bytes are files like all others"""
        names = [b"a b.c", b"it's.c", b'"q".c', b"two\nlines.c", b"-dash.c", b"\xff.c", "é.c".encode(), b"$(x).c", b"a:1:2: error.c"]
        for name in names:
            with open(os.path.join(self.room.encode(), name), "wb") as file:
                file.write(GOOD.encode())
        program = self.stand_in(by_text(GOOD))
        done = self.run_command(["--verbose", "--", *names], program)
        self.assertEqual((done.returncode, done.stderr), (0, b""))
        shown = [it.replace(b"\n", b"\\n") for it in names]
        self.assertEqual(done.stdout.split(b"\n")[:-2], [it + b":1:14: note: proved by check 2000" for it in shown])
        folder = self.run_command(["."], program)
        self.assertEqual(folder.stdout, b"9 files: 9 proved, 0 can fail, 0 not settled\n")

    def test_folders(self) -> None:
        """a folder stands for its .c files, in order, without hidden ones; each file comes once"""
        for name in ("b/2.c", "b/1.c", "a.c", ".hidden.c", ".git/x.c", "b/.c", "b/readme.txt", "b/10.c"):
            self.file(name, GOOD)
        program = self.stand_in(by_text(GOOD))
        lines, _ = self.lines(["--verbose", "b/2.c", ".", "b"], program)
        self.assertEqual([it.split(":")[0] for it in lines[:-1]], ["b/2.c", "./a.c", "./b/1.c", "./b/10.c", "./b/2.c", "b/1.c", "b/10.c"])
        os.mkdir(os.path.join(self.room, "empty"))
        lines, status = self.lines(["empty"], program)
        self.assertEqual((lines[0], status), ("empty: error: can't be read: there is no .c file in this folder", 3))

    def test_standard_input(self) -> None:
        """- is standard input"""
        lines, status = self.lines(["-", "--verbose"], self.stand_in(by_text(GOOD)), GOOD.encode())
        self.assertEqual((lines[0], status), ("<stdin>:1:14: note: proved by check 2000", 0))

    def test_unreadable(self) -> None:
        """a file that can't be read is told, and the others go on"""
        self.file("a.c", GOOD)
        lines, status = self.lines(["none.c", "a.c", "a.c/b.c"], self.stand_in(by_text(GOOD)))
        self.assertEqual(lines, [
            "none.c: error: can't be read: No such file or directory", "a.c/b.c: error: can't be read: Not a directory",
            "3 files: 1 proved, 0 can fail, 0 not settled, 2 unreadable"])
        self.assertEqual(status, 3)


class Statuses(Case):
    """Statuses and words."""

    def test_worst(self) -> None:
        """the status is that of the worst file"""
        for name, text in (("good.c", GOOD), ("bad.c", BAD), ("old.c", OLD), ("open.c", "open")):
            self.file(name, text)
        unknown = {"check --workers 1 --budget 2000|open": report("1:1: unknown (budget 2000 spent)")}
        program = self.stand_in(by_text(GOOD, BAD, OLD) | unknown)
        for names, status in (("good", 0), ("good open", 2), ("bad good open", 1), ("good old bad open", 3), ("none", 3)):
            words = [f"{it}.c" for it in names.split()]
            self.assertEqual(self.run_command([*words, "--quick"], program).returncode, status, names)

    def test_words(self) -> None:
        """words that are no command end with status 4, and nothing is run"""
        program = self.stand_in({})
        wrong: list[list[str]] = [
            [], ["--tim", "3", "a.c"], ["--time", "0", "a.c"], ["-j", "0", "a.c"], ["--format", "xml", "a.c"], ["-", "-"],
            ["--update-baseline", "a.c"], ["--recheck", "x", "--quick"], ["--engine", "cvc", "a.c"], ["--nothing", "a.c"]]
        for words in wrong:
            done = self.run_command(words, program)
            self.assertEqual((done.returncode, done.stdout), (4, b""), words)
            self.assertIn(b"smash-files: ", done.stderr)
        self.assertFalse(os.path.exists(os.path.join(self.room, "stand-in", "asked")))

    def test_help(self) -> None:
        """--help and --version end with 0, and need no program"""
        for words, first in ((["--help"], b"usage: smash-files"), (["--version"], b"smash-files ")):
            done = self.run_command(words, "/nonexistent")
            self.assertEqual((done.returncode, done.stderr), (0, b""))
            self.assertTrue(done.stdout.startswith(first))

    def test_no_program(self) -> None:
        """without a program the status is 70, and one line says why"""
        self.file("text", "no program")
        for program in ("/nonexistent", os.path.join(self.room, "text"), self.room):
            done = self.run_command(["a.c"], program)
            self.assertEqual((done.returncode, done.stdout, done.stderr.count(b"\n")), (70, b"", 1))

    def test_launcher(self) -> None:
        """without --program the launcher beside it is asked, once for all files"""
        top = os.path.join(self.room, "copy")
        os.mkdir(top)
        for name in ("files", "smash-files"):
            os.symlink(os.path.realpath(os.path.join(TOP, name)), os.path.join(top, name))
        program = self.stand_in(by_text(GOOD))
        names = [self.file(f"{at}.c", GOOD) for at in range(3)]
        start = f"import sys; sys.path.insert(0, {TOP!r}); from files import program; program.TOP = {top!r}; from files import command; "
        start += "sys.exit(command.main(sys.argv[1:]))"
        for text, status, told in ((f"#!/bin/sh\necho x >> {self.room}/told\necho {program}\n", 0, b""),
                                   ("#!/bin/sh\necho 'smash: no program' >&2\nexit 70\n", 70, b"smash-files: smash: no program\n")):
            os.chmod(self.file("copy/smash", text), 0o755)
            done = subprocess.run([sys.executable, "-c", start, "--engine", "none", *names], capture_output=True, cwd=self.room)
            self.assertEqual((done.returncode, done.stderr), (status, told))
        with open(os.path.join(self.room, "told"), encoding="utf-8") as file:
            self.assertEqual(file.read(), "x\n")

    def test_unwritten(self) -> None:
        """what can't be written is told, with status 5"""
        self.file("a.c", BAD)
        program = self.stand_in(by_text(BAD))
        for words in (["--repro", "none/x.c"], ["--baseline", "none/b", "--update-baseline"], ["--bundle", "a.c/x"]):
            done = self.run_command(["a.c", *words], program)
            self.assertEqual(done.returncode, 5, words)
            self.assertIn(b"smash-files: ", done.stderr)
        with open("/dev/full", "wb") as full:
            done = subprocess.run([sys.executable, COMMAND, "--program", program, "--engine", "none", "a.c"], stdout=full,
                                  stderr=subprocess.PIPE, cwd=self.room)
        self.assertEqual((done.returncode, done.stderr), (5, b"smash-files: standard output: No space left on device\n"))


class Terminals(Case):
    """What a terminal gets, and a pipe doesn't."""

    def on_terminal(self, words: list[str], program: str, **more: str) -> bytes:
        """What a run writes to a terminal."""
        reader, writer = pty.openpty()
        child = subprocess.Popen([sys.executable, COMMAND, "--program", program, "--engine", "none", *words], stdin=writer,
                                 stdout=writer, stderr=writer, cwd=self.room, env=os.environ | {"TERM": "xterm"} | more)
        os.close(writer)
        output = b""
        while select.select([reader], [], [], 120)[0]:
            try:
                part = os.read(reader, 65536)
            except OSError:
                break
            output += part
        child.wait()
        os.close(reader)
        return output

    def test_progress_and_colours(self) -> None:
        """a terminal gets a progress line and colours, without them where NO_COLOR is set; a pipe gets neither"""
        self.file("a.c", BAD)
        program = self.stand_in(by_text(BAD) | {f"check --workers 1 --budget 2000|{BAD}": report("1:14: found [4]") | {"sleep": 1.5}})
        told = self.on_terminal(["a.c"], program)
        self.assertIn(b"0 of 1 files, ", told)
        self.assertIn(b"a.c check 2000", told)
        self.assertIn(b"\033[1;31merror:\033[0m assertion can fail on input 4", told)
        plain = self.on_terminal(["a.c"], program, NO_COLOR="1")
        self.assertNotIn(b"\033[1;31m", plain)
        self.assertIn(b"a.c:1:14: error: assertion can fail on input 4", plain)
        piped = self.run_command(["a.c"], program)
        self.assertEqual(piped.stderr, b"")
        self.assertNotIn(b"\033", piped.stdout)
        self.assertNotIn(b"\r", piped.stdout)


if __name__ == "__main__":
    unittest.main()
