"""Each line that the program may print, in each format: byte for byte, read back, and as an editor reads it."""
import os
import re
import shutil
import subprocess
import unittest

from sarif_schema import faults, rule_faults
from setting import REPOSITORY, Case, dedented, report

from files.reports import Refusal, report_of

SOURCE = dedented("""
    int main() {
      int x = input();
      if (x > 5) {
        assert(x != 7);
      }
    \tassert(x < 9);
      return 0;
    }
""")
KINDS = ("wide", "rows", "columns", "branches", "inexact")


def page(name: str) -> str:
    """A page of the documentation."""
    with open(os.path.join(REPOSITORY, "docs", name), encoding="utf-8") as file:
        return file.read()


def refusals() -> list[str]:
    """The texts of LANGUAGE's table of refusals."""
    text = page("LANGUAGE.md")
    table = text[text.index("| text | place | example |"):].split("\n\n")[0]
    cells = [line.split("|")[1] for line in table.split("\n")[2:]]
    return [it for cell in cells for it in re.findall(r"`([^`]+)`", cell)]


def reasons() -> list[str]:
    """The reasons of USING's tables and blocks."""
    text = page("USING.md")
    table = text[text.index("| kind | the question to the solver |"):].split("\n\n")[0]
    kinds = [f"solver limit: {it}" for it in re.findall(r"(?m)^\| `([a-z]+)` \|", table)]
    return kinds + sorted(set(re.findall(r"unknown \(((?:budget|sweep) \d+ spent)\)", text)))


class Gcc(Case):
    """The default text."""

    def test_found(self) -> None:
        """an assertion that can fail: the line, the source's line with a caret under it, the run, the summary"""
        table = {"check": report("4:5: found [7]", "6:2: found [9, -2]"), "replay": {"output": "failed 4:5, inputs used 1\n", "status": 1}}
        name = self.file("src/a b.c", SOURCE)
        program = self.stand_in(table | {"replay --fuel 1000000 [9, -2]": {"output": "stopped, inputs used 1\n"}})
        self.assertEqual(self.lines([name], program), (dedented(f"""
            {name}:4:5: error: assertion can fail on input 7
                4 |     assert(x != 7);
                  |     ^
              line 2  x = 7 (input 1)
              line 3  x > 5 is true
              line 4  x != 7 is false, where x = 7
            {name}:6:2: error: assertion can fail on inputs 9, -2
                6 | \tassert(x < 9);
                  | \t^
              no trace: the program's replay says 'stopped, inputs used 1'
            1 file: 0 proved, 2 can fail, 0 not settled
        """).split("\n")[:-1], 1))

    def test_no_and_many_inputs(self) -> None:
        """an assertion that fails without inputs, and one that fails on more than a line holds"""
        many = ", ".join(map(str, range(1, 102)))
        program = self.stand_in({"check": report("4:5: found []", f"6:2: found [{many}]")})
        lines, _ = self.lines([self.file("a.c", SOURCE)], program)
        told = [it.split("error: ")[1] for it in lines if ": error: " in it]
        few = ", ".join(map(str, range(1, 21)))
        self.assertEqual(told, ["assertion can fail, without any input", f"assertion can fail on 101 inputs: {few}, .."])

    def test_unknown(self) -> None:
        """each reason of USING's tables is a warning, byte for byte"""
        self.assertEqual(len(reasons()), len(KINDS) + 3)
        for reason in reasons():
            program = self.stand_in({"check": report("4:5: proved", f"6:2: unknown ({reason})")})
            name = self.file("a.c", SOURCE)
            self.assertEqual(self.lines([name, "--quick"], program), (
                [f"{name}:6:2: warning: not settled: {reason}", "1 file: 1 proved, 0 can fail, 1 not settled"], 2))

    def test_proved(self) -> None:
        """what is proved is told with --verbose alone"""
        name, program = self.file("a.c", SOURCE), self.stand_in({"check": report("4:5: proved", "6:2: proved")})
        last = "1 file: 2 proved, 0 can fail, 0 not settled"
        self.assertEqual(self.lines([name], program), ([last], 0))
        self.assertEqual(self.lines([name, "--verbose"], program), (
            [f"{name}:4:5: note: proved by check 2000", f"{name}:6:2: note: proved by check 2000", last], 0))

    def test_refusals(self) -> None:
        """each refusal of LANGUAGE's table is an error with the source's line, byte for byte"""
        self.assertEqual(len(refusals()), 20)
        for text in refusals():
            program = self.stand_in({"check": {"output": f"refused 1:5: {text}\n", "status": 3}})
            name = self.file("a.c", "int main() {}\n")
            lines, status = self.lines([name], program)
            self.assertEqual(lines[:3], [
                f"{name}:1:5: error: not in the language: {text} (docs/LANGUAGE.md)", "    1 | int main() {}", "      |     ^"])
            self.assertTrue(all(it.startswith(f"{name}:1:5: note: in place of ") for it in lines[3:-1]))
            self.assertEqual((lines[-1], status), ("1 file: 0 proved, 0 can fail, 0 not settled, 1 refused", 3))

    def test_too_long(self) -> None:
        """a source that is too long is refused without a place"""
        program = self.stand_in({"check": {"output": "refused: source longer than 65536 bytes\n", "status": 3}})
        name = self.file("a.c", SOURCE)
        lines, status = self.lines([name], program)
        self.assertEqual((lines[0], status), (
            f"{name}: error: not in the language: source longer than 65536 bytes (docs/LANGUAGE.md)", 3))

    def test_statuses(self) -> None:
        """a program that ends with another status, or by a signal, has settled nothing, and that is said"""
        rows = {4: "status 4: the words are no command", 5: "status 5: a read failed", 6: "status 6: a write failed",
                7: "status 7: out of memory", 70: "status 70"}
        name = self.file("a.c", SOURCE)
        for status, text in rows.items():
            program = self.stand_in({"check": {"output": "4:5: proved\n", "status": status}})
            self.assertEqual(self.lines([name], program), (
                [f"{name}: warning: not settled: the program ended with {text}",
                 "1 file: 0 proved, 0 can fail, 0 not settled, 1 stopped"], 2))
        program = self.stand_in({"check": {"output": "4:5: proved\n", "signal": 11}})
        self.assertIn("the program was ended by signal 11", self.lines([name], program)[0][0])

    def test_long_line(self) -> None:
        """of a long line the part around the place is shown, with the caret under it"""
        text = "int main() { /* " + "x" * 500 + " */ assert(0); }"
        program = self.stand_in({"check": report(f"1:{text.index('assert') + 1}: found []")})
        lines, _ = self.lines([self.file("a.c", text)], program)
        self.assertEqual(lines[1][lines[2].index("^"):][:10], "assert(0);")
        self.assertLess(len(lines[1]), 180)

    def test_other_letters(self) -> None:
        """letters beyond ASCII stay, and what no terminal should get is a question mark"""
        text = "int main() { /* é\x1b[2J */ assert(0); }\n".encode()
        program = self.stand_in({"check": report(f"1:{text.index(b'assert') + 1}: found []")})
        lines, _ = self.lines([self.file("a.c", text)], program)
        self.assertEqual(lines[1], "    1 | int main() { /* é?[2J */ assert(0); }")
        self.assertEqual(lines[2].index("^"), lines[1].index("assert"))


class Strict(Case):
    """Texts that aren't the program's."""

    def test_malformed(self) -> None:
        """a text that is nearly a report is none, and nothing of it is taken"""
        good = "4:5: proved\n6:2: found [7]\nsummary: 1 proved, 1 found, 0 unknown\n"
        bad = [
            good.replace("1 proved,", "2 proved,"), good.replace("proved\n6", "proven\n6"), good[:-1], good.replace("4:5", "7:5"),
            good.replace("[7]", "[7,8]"), good.replace("[7]", "[07]"), good.replace("4:5: ", "04:5: "), "", "\n", good + "\n",
            good.replace("6:2", "4:5"), "summary: 0 proved, 0 found, 0 unknown\n", good.replace("4:5: proved", "4:5: proved "),
            good.replace("found [7]", "unknown (solver limit: other)"),
        ]
        name = self.file("a.c", SOURCE)
        for text in bad:
            with self.subTest(text=text):
                lines, status = self.lines([name], self.stand_in({"check": {"output": text, "status": 1}}))
                self.assertEqual((lines[-1], status), ("1 file: 0 proved, 0 can fail, 0 not settled, 1 stopped", 2))
        for status in (0, 2, 3):
            lines, _ = self.lines([name], self.stand_in({"check": {"output": good, "status": status}}))
            self.assertEqual(lines[-1], "1 file: 0 proved, 0 can fail, 0 not settled, 1 stopped")
        self.assertIsInstance(report_of(b"refused 1:2: bad byte\n", 3), Refusal)


class Editors(Case):
    """As an editor reads the default text."""

    @unittest.skipUnless(shutil.which("vim"), "there is no vim")
    def test_vim(self) -> None:
        """vim's own errorformat finds each line with its file, line, column and text"""
        name = self.file("src/a.c", SOURCE)
        other = self.file("old.c", "int main() { return a[1]; }\n")
        program = self.stand_in({
            f"check --workers 1 --budget 2000|{SOURCE}": report("4:5: found [7]", "6:2: unknown (budget 2000 spent)"),
            "check": {"output": "refused 1:22: bad byte\n", "status": 3},
            "sweep": report("4:5: found [7]", "6:2: unknown (sweep 5000 spent)"),
            "replay": {"output": "failed 4:5, inputs used 1\n", "status": 1}})
        lines, _ = self.lines([name, other, "--quick"], program)
        self.file("errors", "\n".join(lines) + "\n")
        script = self.file("script.vim", dedented("""
            set nocompatible
            cgetfile errors
            for it in getqflist()
              if it.valid
                call writefile([bufname(it.bufnr) . '|' . it.lnum . '|' . it.col . '|' . it.type . '|' . it.text], 'read', 'a')
              endif
            endfor
            qall!
        """))
        vim = shutil.which("vim") or ""
        subprocess.run([vim, "-u", "NONE", "-es", "-S", script], cwd=self.room, stdin=subprocess.DEVNULL, timeout=60)
        with open(os.path.join(self.room, "read"), encoding="utf-8") as file:
            read = file.read().replace(self.room + "/", "").split("\n")
        self.assertEqual(read[0], "src/a.c|4|5|| error: assertion can fail on input 7")
        self.assertEqual(read[1], "src/a.c|6|2|| warning: not settled: budget 2000 spent")
        self.assertEqual(read[2], "old.c|1|22|| error: not in the language: bad byte (docs/LANGUAGE.md)")
        self.assertTrue(read[3].startswith("old.c|1|22|| note: in place of `a[i]`"))
        self.assertEqual(len(read), 5)

    def test_gcc_pattern(self) -> None:
        """what compilation modes look for stands in each line of a verdict, and in no other one"""
        program = self.stand_in({"check": report("4:5: found [7]", "6:2: unknown (budget 2000 spent)"),
                                 "replay": {"output": "failed 4:5, inputs used 1\n", "status": 1}})
        lines, _ = self.lines([self.file("a.c", SOURCE), "--quick"], program)
        pattern = re.compile(r"(\S+?):(\d+):(\d+): (error|warning|note): .+")
        self.assertEqual([it[2] + ":" + it[3] for it in map(pattern.fullmatch, lines) if it], ["4:5", "6:2"])


class Machines(Case):
    """JSON and SARIF."""

    def whole(self) -> tuple[list[str], str]:
        """Files of each kind, and a program for them."""
        table = {
            f"check --workers 1 --budget 2000|{SOURCE}": report("4:5: found [7]", "6:2: unknown (solver limit: wide)"),
            "check --workers 1 --budget 2000|proved": report("1:1: proved"),
            "check --workers 1 --budget 2000|bad": {"output": "refused 1:1: bad byte\n", "status": 3},
            "check --workers 1 --budget 2000|memory": {"output": "", "status": 7},
            "replay": {"output": "failed 4:5, inputs used 1\n", "status": 1},
        }
        names = [self.file(name, text) for name, text in
                 (("a b.c", SOURCE), ("b'\"\n.c", "proved"), ("é.c".encode().decode("latin-1"), "bad"), ("m.c", "memory"))]
        return [*names, "none.c"], self.stand_in(table)

    def test_json(self) -> None:
        """what is told as JSON reads back as all that is known"""
        names, program = self.whole()
        held = self.json([*names, "--quick"], program)
        self.assertEqual([it["file"] for it in held["files"]], names)
        self.assertEqual([it["status"] for it in held["files"]], [1, 0, 3, 2, 3])
        self.assertEqual(held["files"][0]["assertions"], [
            {"number": 1, "line": 4, "column": 5, "procedure": "main", "assertion": "x != 7", "state": "can fail", "inputs": [7],
             "run": [{"line": 2, "column": 7, "text": "x = 7", "input": 1}, {"line": 3, "column": 7, "text": "x > 5 is true"},
                     {"line": 4, "column": 5, "text": "x != 7 is false, where x = 7"}], "by": "check 2000"},
            {"number": 2, "line": 6, "column": 2, "procedure": "main", "assertion": "x < 9", "state": "not settled",
             "reasons": ["solver limit: wide"]}])
        self.assertEqual(held["files"][1]["assertions"][0]["state"], "proved")
        self.assertEqual(held["files"][2]["refused"], {"line": 1, "column": 1, "text": "bad byte", "hints": []})
        self.assertEqual(held["files"][3]["fault"], "the program ended with status 7: out of memory")
        self.assertEqual(held["files"][4]["fault"], "No such file or directory")

    def test_sarif(self) -> None:
        """what is told as SARIF fits the standard, and reads back as the same verdicts"""
        import json
        names, program = self.whole()
        done = self.run_command([*names, "--quick", "--format", "sarif", "--verbose"], program)
        log = json.loads(done.stdout)
        self.assertEqual(faults(log) + rule_faults(log), [])
        results = log["runs"][0]["results"]
        self.assertEqual([it["ruleId"] for it in results], ["can-fail", "not-settled", "proved", "refused", "stopped", "unreadable"])
        self.assertEqual([it["level"] for it in results], ["error", "warning", "none", "error", "warning", "error"])
        self.assertEqual(results[0]["locations"][0]["physicalLocation"]["region"], {"startLine": 4, "startColumn": 5})
        self.assertEqual(results[0]["message"]["text"], "assertion can fail on input 7")
        flow = results[0]["codeFlows"][0]["threadFlows"][0]["locations"]
        self.assertEqual([it["location"]["message"]["text"] for it in flow], ["x = 7", "x > 5 is true", "x != 7 is false, where x = 7"])
        uris = [it["location"]["uri"].removeprefix(f"file://{self.room}/") for it in log["runs"][0]["artifacts"]]
        self.assertEqual(uris, ["a%20b.c", "b%27%22%0A.c", "%C3%83%C2%A9.c", "m.c", "none.c"])
        self.assertEqual(log["runs"][0]["invocations"], [{"executionSuccessful": False, "exitCode": 3}])

    def test_sarif_columns(self) -> None:
        """a column of SARIF counts characters, and one of the program bytes"""
        import json
        text = "int main() { /* éé */ assert(0); }".encode()
        program = self.stand_in({"check": report(f"1:{text.index(b'assert') + 1}: found []")})
        log = json.loads(self.run_command([self.file("a.c", text), "--format", "sarif"], program).stdout)
        region = log["runs"][0]["results"][0]["locations"][0]["physicalLocation"]["region"]
        self.assertEqual(region["startColumn"], text.decode().index("assert") + 1)

    def test_validator(self) -> None:
        """the validator of the tests refuses what the standard refuses"""
        import json
        names, program = self.whole()
        held = self.run_command([*names, "--quick", "--format", "sarif"], program).stdout.decode()
        for old, new in (('"version": "2.1.0"', '"version": "2.2.0"'), ('"level": "error"', '"level": "fatal"'),
                         ('"startLine": 4', '"startLine": 0'),
                         ('"kind": "fail"', '"kind": "pass"'), ('"ruleIndex": 0', '"ruleIndex": 1'), ('"uri": "a', '"uri": "a b'),
                         ('"text": "assertion', '"txt": "assertion'), ('"executionSuccessful": false', '"executionSuccessful": 0')):
            if old == '"uri": "a':
                old, new = "a%20b.c", "a b.c"
            self.assertIn(old, held)
            log = json.loads(held.replace(old, new))
            self.assertNotEqual(faults(log) + rule_faults(log), [], old)


if __name__ == "__main__":
    unittest.main()
