"""What to write instead: each row of LANGUAGE's table, by a program that is refused so."""
import unittest

from setting import PROGRAM, Case

from files.hints import hints_of, table
from files.processes import Processes
from files.program import Program
from files.reports import Refusal

# A program for each text and token of the table that isn't one of these forms: a word behind a brace, a byte in an
# expression, a name that is called.
PROGRAMS = {
    ("bad byte", "["): "int main() { int a[4]; }",
    ("bad byte", "]"): "int main() { return 1]; }",
    ("bad byte", "BOM"): "\xef\xbb\xbfint main() {}", ("bad byte", '"'): 'int main() { assert(1 && "text"); }',
    ("bad byte", "#"): "#define N 10\nint main() {}",
    ("bad byte", "\\"): "#include <a.h>\nint main() { return 1 \\\n; }",
    ("bad byte", ":"): "int main() { again: return 1; }",
    ("bad byte", "'"): "int main() { return 'a'; }",
    ("unexpected token", "*"): "int main() { *p = 1; }",
    ("unexpected token", ">"): "int main() { int p; int x; x = p->x; }",
    ("unexpected token", "int"): "int main() { return (int) 1; }",
    ("unexpected token", "long"): "int main() { return (long) 1; }",
    ("unexpected token", "="): "int main() { int x; int y; x = y = 3; }",
    ("unexpected token", "++"): "int main() { int x; f(x++); }",
    ("unexpected token", "--"): "int main() { int x; f(x--); }",
    ("unexpected token", "+="): "int main() { int x; f(x += 1); }",
    ("unexpected token", "-="): "int main() { int x; f(x -= 1); }",
    ("unexpected token", ","): "int main() { int i; for (i = 0, i = 1; ; ) {} }",
    ("unexpected token", "<"): "int main() { int x; x = x << 2; }",
    ("unexpected token", "NAME"): "int f() {} int g = f(); int main() {}",
    ("unexpected token", "+"): "int g = 1 + 1; int main() {}",
    ("unexpected token", "-"): "int g = 1 - 1; int main() {}",
    ("unexpected token", "/"): "int g = 1 / 1; int main() {}",
    ("unexpected token", "%"): "int g = 1 % 1; int main() {}",
    ("product of two non-constants", ""): "int main() { int x; x = x * x; }",
    ("divisor not allowed", ""): "int main() { int x; x = 6 / x; }",
    ("unknown name", "NAME"): "int f(int); int main() { return f(1); }",
    ("main has the wrong shape", ""): "int main(int n) {}",
    ("no main", ""): "int f(int n) { return n; }",
    ("void used as value", ""): "void f() {} int main() { int x; x = f(); }",
}


def program_of(refused: str, token: str) -> str:
    """A program that is refused so at such a token."""
    if (refused, token) in PROGRAMS:
        return PROGRAMS[refused, token]
    if refused == "bad byte":
        return f"int main() {{ int x; x = {token} x; }}"
    if refused == "unknown name":
        return f"int main() {{ int x; x = {token}; }}" if token in ("true", "false", "NULL") else f"int main() {{ {token}(1); }}"
    return f"int main() {{ {token} x; }}" if token not in ("sizeof",) else "int main() { return sizeof 1; }"


class Table(Case):
    """The table."""

    def clauses(self) -> list[tuple[str, str, str]]:
        """Each text and token of the table, with the construct of its row."""
        return [(refused, token, row.construct) for row in table() for refused, tokens in row.refused.items() for token in tokens or ("",)]

    def test_rows(self) -> None:
        """each row of LANGUAGE's table is told for a program that is refused as it says"""
        program = Program(PROGRAM, Processes())
        clauses = self.clauses()
        self.assertGreater(len(clauses), 90)
        self.assertEqual(set(PROGRAMS) - {(refused, token) for refused, token, _ in clauses}, set())
        for refused, token, construct in clauses:
            with self.subTest(refused=refused, token=token):
                text = program_of(refused, token).encode("latin-1")
                answer = program.check(text, 1, 600)
                assert isinstance(answer, Refusal) and answer.place
                self.assertEqual(answer.text, refused)
                self.assertIn(construct, [it.construct for it in hints_of(text, answer)])

    def test_every_row_is_whole(self) -> None:
        """each row has a construct, a way that it is refused, and what to write"""
        self.assertGreater(len(table()), 30)
        for row in table():
            self.assertTrue(row.construct and row.remedy and row.refused, row)

    def test_other_constructs(self) -> None:
        """the other constructs of a refused file are told with the first one, and none of comments and texts"""
        text = 'typedef int t; // struct\n/* enum */\nstatic int g;\nint main() { switch (g) { case 1: f("union", \'x\'); } }\n'
        lines, status = self.lines([self.file("a.c", text)])
        notes = [it.split("/")[-1] for it in lines if ": note: " in it]
        self.assertEqual([it.split(": note: in place of ")[0] for it in notes], [
            "a.c:4:33", "a.c:1:1", "a.c:3:1", "a.c:4:14", "a.c:4:37", "a.c:4:46"])
        self.assertEqual(status, 3)


if __name__ == "__main__":
    unittest.main()
